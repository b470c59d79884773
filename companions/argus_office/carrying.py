"""Prints a priori lines with which this year's release hides the cells that last year's hid, where
that protects.

usage: argus carry LAST.job THIS.job [--table N] [--cells PROGRAM]

A cell that was shown last year and is hidden this year, beside one that was hidden and is shown,
can give away more than either release alone, and readers ask why. The lines are `c` lines of price
1, the least there is: argus hides the cheapest cells that protect, so it takes these where they do,
and others where they don't. They change which cells are hidden and nothing that a release promises.

It reads LAST.job, the tables that it names (what was published, no records), THIS.job, and the
listing of this year's cells by the program cells. Variables and codes are compared by their names;
the total counts as the total, whatever it is called. A cell gets a line where all its codes are
there this year, it isn't always shown (a `p` line, or no records), and this year's a priori files
have no `c` line for it. N is the table of THIS.job that the lines are for, where there are several.
PROGRAM is the built program cells; without it the launcher beside this file is called, which begins
no build here. Each job's files lie in its own folder.

The lines go to standard output, and what became of last year's cells to standard error. The status
is 0 where the lines were printed, 1 for the usage line, 2 where something can't be read.
"""

import csv
import os
import re
import sys
from typing import Dict, FrozenSet, List, Optional, Set, Tuple

from argus_office.programs import ProgramFault, Programs, said_by
from argus_office.reading import job as reading
from argus_office.reading.files import Unread, bytes_of, content, marked, text_of
from argus_office.reading.priors import statements_of
from argus_office.reading.tables import Listing, rows_of

USAGE = "usage: argus carry LAST.job THIS.job [--table N] [--cells PROGRAM]"
# What may stand between the fields of an a priori file, by preference; no digit, point, quote or
# blank may.
SEPARATORS = (b",", b";", b"|", b":", b"#", b"~", b"^", b"!")
# A cell by its codes: variable and code, without the variables that are at their total.
Cell = FrozenSet[Tuple[str, str]]


class Stop(Exception):
    """What can't be read, in one line."""


def rows_in(text: str, name: str) -> List[List[str]]:
    """The rows of a table or a listing. Raises Stop where it has none."""
    try:
        return rows_of(text, True)
    except csv.Error as fault:
        raise Stop("%s: no table of argus (%s)" % (name, fault)) from fault


class Job:
    """What a job says of its tables, their files and its a priori files. Raises Stop where it can't
    be read or has no table."""
    def __init__(self, name: str) -> None:
        self.name, self.folder = name, os.path.dirname(name)
        try:
            self.source = reading.Job(os.fsencode(name))
        except Unread as fault:
            raise Stop(fault.line()) from fault
        tables = [it for _, it in self.source.tables()]
        self.tables = [list(map(text_of, it.variables)) for it in tables]
        self.written = {it.table: text_of(it.file) for _, it in self.source.outputs()}
        self.stated = {it.table: it for _, it in self.source.priors()}
        if not self.tables:
            raise Stop("%s: no line <SPECIFYTABLE>" % name)

    def path(self, name: str) -> str:
        """The path of a file that the job names."""
        return os.path.join(self.folder, name)


def cell_of(variables: List[str], codes: List[str], totals: Dict[str, str]) -> Cell:
    """A cell by its codes."""
    return frozenset((name, code) for name, code in zip(variables, codes) if code != totals[name])


def hidden_of(job: Job) -> List[Cell]:
    """The cells that the job's tables hide, each once, in the order of the tables."""
    found: List[Cell] = []
    seen: Set[Cell] = set()
    for number, variables in enumerate(job.tables, 1):
        if number not in job.written:
            raise Stop("%s: no line <WRITETABLE> for table %d" % (job.name, number))
        name = job.path(job.written[number])
        try:
            rows = rows_in(text_of(content(os.fsencode(name), None)), name)
        except Unread as fault:
            raise Stop(fault.line()) from fault
        if len(rows) < 2 or rows[0][:-1] != variables or any(
                len(row) != len(rows[0]) for row in rows):
            raise Stop("%s: not the table %d of %s: its first line should name %s" %
                       (name, number, job.name, ", ".join(variables)))
        totals = dict(zip(variables, rows[1]))
        for row in rows[1:]:
            cell = cell_of(variables, row, totals)
            if row[-1] == "x" and cell not in seen:
                seen.add(cell)
                found.append(cell)
    return found


class Cells:
    """This year's cells by their codes, as the program cells lists them."""
    def __init__(self, job: Job, program: Optional[str]) -> None:
        rows = rows_in(listed(job, program), "the listing of %s" % job.name)
        try:
            listing = Listing(rows)
        except ValueError as fault:
            raise no_listing(job, program) from fault
        if not listing.is_whole():
            raise no_listing(job, program)
        self.variables = listing.variables
        self.totals = dict(zip(self.variables, listing.codes(listing.rows[0])))
        self.tables: Dict[Cell, Set[int]] = {}
        self.status: Dict[Cell, str] = {}
        self.codes: Set[Tuple[str, str]] = set()
        for row in listing.rows:
            cell = cell_of(self.variables, listing.codes(row), self.totals)
            self.tables[cell] = {int(it) for it in row[1].split()}
            self.status[cell] = row[listing.at["status"]]
            self.codes.update(cell)


def no_listing(job: Job, program: Optional[str]) -> Stop:
    """The fault that the program cells printed something else."""
    return Stop("%s printed no listing of %s" % (program or "cells", job.name))


def listed(job: Job, program: Optional[str]) -> str:
    """The listing of the program cells: the one that was given, or that beside argus."""
    name, folder = os.path.basename(job.name), job.folder or "."
    try:
        said = said_by([program, name], folder) if program else Programs().cells(name,
                                                                                 folder=folder)
    except ProgramFault as fault:
        raise Stop(str(fault)) from fault
    if said.status:
        raise Stop("cells %s: %s" % (name, said.err.strip() or "status %d" % said.status))
    return said.out


def priced(job: Job, totals: Dict[str, str]) -> Set[Cell]:
    """The cells for which this year's a priori files have a `c` line: a second one with another
    price would be refused.
    """
    found: Set[Cell] = set()
    for number, it in job.stated.items():
        variables = job.tables[number - 1] if 1 <= number <= len(job.tables) else []
        try:
            path = os.fsencode(job.path(text_of(it.file)))
            statements = statements_of(path, number, it.separator, len(variables))
        except Unread as fault:
            raise Stop(fault.line()) from fault
        for line in statements:
            if line.keyword == "c" and len(line.fields) == 1:
                found.add(cell_of(variables, list(map(text_of, line.codes)), totals))
    return found


class Lines:
    """The lines, and how many of last year's cells have none for which reason."""
    def __init__(self, last: Job, this: Job, number: int, program: Optional[str]) -> None:
        listing = Cells(this, program)
        variables = this.tables[number - 1]
        self.hidden = hidden_of(last)
        self.lost: Dict[str, int] = {}
        self.cells: List[Cell] = []
        known = priced(this, listing.totals)
        for cell in self.hidden:
            why = self.reason(cell, listing, number, known)
            if why:
                self.lost[why] = self.lost.get(why, 0) + 1
            else:
                self.cells.append(cell)
        rows = [[dict(cell).get(name, listing.totals[name]) for name in variables]
                for cell in self.cells]
        self.separator = separator_for(this, number, rows)
        self.lines = [
            self.separator.join([bytes_of(it) for it in row] + [b"c", b"1"]) for row in rows
        ]

    def reason(self, cell: Cell, listing: Cells, number: int, known: Set[Cell]) -> str:
        """Why a cell of last year has no line; empty where it has one."""
        if any(name not in listing.variables for name, _ in cell):
            return "of a variable that is in no table now"
        if any(it not in listing.codes for it in cell):
            return "with a code that is gone"
        if cell not in listing.tables:
            return "of codes that no table crosses now"
        if number not in listing.tables[cell]:
            return "of another table"
        if listing.status[cell] == "fixed":
            return "always shown now"
        return "with a price of its own" if cell in known else ""

    def said(self) -> str:
        """What became of last year's cells."""
        parts = ["%d %s" % (count, why) for why, count in sorted(self.lost.items())]
        return "%d hidden last year: %s" % (len(
            self.hidden), "; ".join(["%d with a line" % len(self.lines)] + parts))


def separator_for(job: Job, number: int, rows: List[List[str]]) -> bytes:
    """The byte that the job names for the table's file, or else one that no code has."""
    used = bytes_of("".join("".join(row) for row in rows))
    if number in job.stated:
        separator = job.stated[number].separator
        if separator in used:
            raise Stop(
                "%s: a code has a %s in it, which <APRIORI> names as the separator: take another "
                "there" % (job.name, text_of(separator)))
        return separator
    for separator in SEPARATORS:
        if separator not in used:
            return separator
    raise Stop("%s: the codes have every separator that I know" % job.name)


def words_of(given: List[str]) -> Optional[Tuple[str, str, int, Optional[str]]]:
    """The two jobs, the table and the program of a call; nothing where the words are none."""
    names, number, program = [], 0, None
    while given:
        word = given.pop(0)
        if word == "--table" and given and re.fullmatch("[1-8]", given[0]):
            number = int(given.pop(0))
        elif word == "--cells" and given:
            program = os.path.abspath(given.pop(0))
        elif word.startswith("--"):
            return None
        else:
            names.append(word)
    return (names[0], names[1], number, program) if len(names) == 2 else None


def table_of(job: Job, number: int) -> int:
    """The table that the lines are for. Raises Stop where it isn't clear."""
    if number > len(job.tables) or not number and len(job.tables) > 1:
        raise Stop("%s has %d tables: say --table 1 to --table %d, and call once for each" %
                   (job.name, len(job.tables), len(job.tables)))
    return number or 1


def main(words: List[str]) -> int:
    """Prints the lines that the words ask for, and gives the status."""
    given = words_of(words)
    if given is None:
        print(USAGE, file=sys.stderr)
        return 1
    try:
        last, this = Job(given[0]), Job(given[1])
        number = table_of(this, given[2])
        found = Lines(last, this, number, given[3])
        sys.stdout.buffer.write(b"".join(line + b"\n" for line in found.lines))
        sys.stdout.flush()
    except Stop as fault:
        print("carry: %s" % marked(str(fault)), file=sys.stderr)
        return 2
    print("carry: %s" % marked(found.said()), file=sys.stderr)
    if found.lines and number not in this.stated:
        print('carry: the job names the file so: <APRIORI> "FILE",%d,"%s"' %
              (number, text_of(found.separator)),
              file=sys.stderr)
    return 0
