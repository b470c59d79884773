"""Releases several jobs over the same records with one pattern: each hides the same cells.

usage: argus together JOB JOB .. [--force]

A cell that is hidden in one table and shown in another, as turnover and employment of the same
firms, is a puzzle to readers, and who knows how the two go together learns more about the hidden
figure. This runs the first job, then the next one with all hidden cells so far declared unsafe by a
priori lines, and so on, and goes round until all jobs hide the same cells. Then it checks each.

A cell that is hidden for another job's sake gets the lines `u` and `pl` with a level of one unit
upwards, which hides it and asks for hardly more. A cell that the job's own rules make sensitive
keeps its levels. A cell without records in a job shows 0 there, whatever the others hide.

The jobs lie in the current folder, and stay as they are. For each JOB.job there are written
JOB_together.job, which is the same but for its lines <APRIORI>, and for each table
JOB_together_N.hst, with the lines of the office's own file first. They are replaced only with
--force. Tables and certificates are those that the jobs name.

The status is 0 where all have one pattern and are accepted, 1 for the usage line, 2 where something
can't be read, 3 where argus finds no protection or a cell can't be hidden everywhere.
"""

import csv
import os
import sys
from typing import Dict, FrozenSet, Iterator, List, NamedTuple, Sequence, Set, Tuple

from argus_office.programs import ProgramFault, Programs
from argus_office.reading import job as reading
from argus_office.reading.files import BLANKS, Unread, bytes_of, content, lines_of, text_of
from argus_office.reading.priors import statements_of
from argus_office.reading.tables import Listing, rows_of

USAGE = "usage: argus together JOB JOB .. [--force]"
# What may stand between the fields of an a priori file, by preference.
SEPARATORS = ",;|:#~^!"
# A cell by its codes: variable and code, without the variables that are at their total.
Cell = FrozenSet[Tuple[str, str]]


class Stop(Exception):
    """Why this can't go on, in one line, and the status."""

    def __init__(self, what: str, status: int = 2) -> None:
        super().__init__(what)
        self.status = status


class Listed(NamedTuple):
    """A cell of a job as `cells` lists it."""

    codes: Dict[str, str]
    table: int
    records: int
    status: str
    is_hidden: bool


def shown(text: str) -> str:
    """A text of one line: what can't be printed is marked."""
    return "".join(it if it.isprintable() else "?" for it in text)


def put(name: str, text: str, mode: str) -> None:
    """Writes a file; the mode x replaces none."""
    try:
        with open(name, mode + "b") as file:
            file.write(bytes_of(text))
    except FileExistsError as fault:
        raise Stop("%s is there already: --force replaces it" % name) from fault
    except OSError as fault:
        raise Stop("%s: %s" % (name, fault.strerror)) from fault


class Job:
    """One job, and the one that is made of it. Raises Unread where it, or an a priori file of it,
    can't be read."""

    def __init__(self, name: str, programs: Programs) -> None:
        self.name, self.programs = name, programs
        self.stem = name[:-4] if name.endswith(".job") else name
        self.made = self.stem + "_together.job"
        self.read(reading.Job(os.fsencode(name)))
        self.cells = self.listed(name)
        numbers = range(1, len(self.tables) + 1)
        self.separators = {number: self.separator(number) for number in numbers}
        self.keywords = self.stated_keywords()

    def read(self, job: reading.Job) -> None:
        """Takes what the job says."""
        if job.method().word == "RND":
            raise Stop("%s rounds, and hides nothing" % self.name)
        for line, said in job.of("APRIORI"):
            if said is None:
                raise Stop("%s: %s isn't read" % (self.name, text_of(line.raw.strip(BLANKS))))
        self.tables = [[text_of(it) for it in table.variables] for _, table in job.tables()]
        # The office's a priori file of a table, and its lines.
        self.stated = {it.table: it for _, it in job.priors()}
        self.lines = {number: [] if number not in self.stated else self.lines_in(number)
                      for number in range(1, len(self.tables) + 1)}
        self.kept = [text_of(it.raw) for it in job.lines
                     if it.word != "APRIORI" or it.is_passed_over()]

    def lines_in(self, number: int) -> List[str]:
        """The lines of the office's file of a table, but for blank ones."""
        lines = lines_of(content(self.stated[number].file))
        return [text_of(it) for it in lines if it.strip(BLANKS)]

    def separator(self, number: int) -> str:
        """What stands between the fields of a table's file: a byte that no code has."""
        if number in self.stated:
            return text_of(self.stated[number].separator)
        used = {mark for it in self.cells.values() for code in it.codes.values() for mark in code}
        for mark in SEPARATORS:
            if mark not in used:
                return mark
        raise Stop("%s: its codes have all of %s in them" % (self.name, SEPARATORS))

    def stated_keywords(self) -> Dict[Cell, Set[str]]:
        """The keywords of the office's lines for each cell."""
        found: Dict[Cell, Set[str]] = {}
        for number, it in self.stated.items():
            variables = self.tables[number - 1] if 1 <= number <= len(self.tables) else []
            for line in statements_of(it.file, number, it.separator, len(variables)):
                cell = self.cell(variables, list(map(text_of, line.codes)))
                found.setdefault(cell, set()).add(line.keyword)
        return found

    def cell(self, variables: Sequence[str], codes: Sequence[str]) -> Cell:
        """A cell by its codes."""
        return frozenset(
            (name, it) for name, it in zip(variables, codes) if it != self.totals.get(name)
        )

    def listed(self, job: str, *words: str) -> Dict[Cell, Listed]:
        """The cells of a job."""
        said = self.programs.cells(job, *words)
        if said.status:
            raise Stop("%s: %s" % (job, said.err.strip() or "status %d" % said.status))
        try:
            listing = Listing(rows_of(said.out))
        except (ValueError, csv.Error) as fault:
            raise self.no_listing(job) from fault
        if not listing.is_whole():
            raise self.no_listing(job)
        variables, first, at = listing.variables, listing.rows[0], listing.at
        self.totals = dict(zip(variables, listing.codes(first)))
        self.unit = unit_of(first[at["value"]])
        found = {}
        for row in listing.rows:
            codes = listing.codes(row)
            is_hidden = words != () and row[at["release"]] == "hidden"
            found[self.cell(variables, codes)] = Listed(
                dict(zip(variables, codes)), int(row[1].split()[0]), int(row[at["records"]]),
                row[at["status"]], is_hidden
            )
        return found

    @staticmethod
    def no_listing(job: str) -> Stop:
        """The fault that the program cells printed something else."""
        return Stop("%s: cells printed no listing of it" % job)

    def wanting(self, hidden: Set[Cell]) -> Iterator[Cell]:
        """The cells of others that this job has to hide too, and can."""
        for cell in hidden:
            if cell in self.cells and self.cells[cell].records:
                yield cell

    def write(self, hidden: Set[Cell], mode: str) -> None:
        """Writes the job that hides all these cells, with its a priori files."""
        lines = {number: list(it) for number, it in self.lines.items()}
        for cell in sorted(self.wanting(hidden), key=sorted):
            listed, known = self.cells[cell], self.keywords.get(cell, set())
            if listed.status == "primary":
                continue
            if known & {"s", "p"}:
                raise Stop("%s declares the cell %s safe or always shown, and another job hides "
                           "it" % (self.name, codes_of(cell)), 3)
            variables, mark = self.tables[listed.table - 1], self.separators[listed.table]
            codes = [listed.codes[it] for it in variables]
            lines[listed.table].append(mark.join([*codes, "u"]))
            if "pl" not in known:
                lines[listed.table].append(mark.join([*codes, "pl", "0", self.unit]))
        text = "\n".join(self.kept).rstrip("\n") + "\n"
        for number, found in lines.items():
            name = "%s_together_%d.hst" % (self.stem, number)
            put(name, "".join(it + "\n" for it in found), mode)
            text += '<APRIORI> "%s",%d,"%s"\n' % (name, number, self.separators[number])
        put(self.made, text, mode)

    def run(self) -> Set[Cell]:
        """Runs the job that was written; the cells that it hides."""
        said = self.programs.ask("run", self.made)
        print("%s: %s" % (self.made, said.out.split("\n")[0]))
        if said.status:
            raise Stop("%s: argus run ended with status %d" % (self.made, said.status), 3)
        listed = self.listed(self.made, "--released")
        return {cell for cell, it in listed.items() if it.is_hidden}

    def check(self) -> None:
        """Checks the release."""
        said = self.programs.ask("check", self.made)
        if said.out.strip() != "accepted":
            raise Stop("%s: argus check says %s" % (self.made, said.out.strip()), 3)


def unit_of(value: str) -> str:
    """The smallest step of values like this."""
    decimals = len(value.partition(".")[2])
    return "0." + "0" * (decimals - 1) + "1" if decimals else "1"


def codes_of(cell: Cell) -> str:
    """A cell in words."""
    return ", ".join("%s %s" % it for it in sorted(cell)) or "total"


def rounds(jobs: Sequence[Job], may_replace: bool) -> List[str]:
    """Goes round until all jobs hide the same cells; what came of it."""
    hidden: Set[Cell] = set()
    found: List[Set[Cell]] = [set() for _ in jobs]
    modes = ["w" if may_replace else "x" for _ in jobs]
    number = 0
    while number == 0 or any(set(it.wanting(hidden)) - had for it, had in zip(jobs, found)):
        number += 1
        for k, job in enumerate(jobs):
            if number == 1 or set(job.wanting(hidden)) - found[k]:
                job.write(hidden, modes[k])
                modes[k] = "w"
                found[k] = job.run()
                hidden |= found[k]
    for job in jobs:
        job.check()
    lines = ["one pattern: %d cells are hidden, after %d round%s; all %d releases are accepted" %
             (len(hidden), number, "" if number == 1 else "s", len(jobs))]
    for job in jobs:
        without = len(hidden) - len(set(job.wanting(hidden)))
        if without:
            lines.append("%s has no record in %d of these cells, and shows 0 there, or no line" %
                         (job.made, without))
    return lines


def main(words: List[str]) -> int:
    """Does what the words say, and gives the status."""
    names = [it for it in words if it != "--force"]
    if len(set(names)) < 2 or len(set(names)) < len(names) or any(it[:1] == "-" for it in names):
        print(USAGE, file=sys.stderr)
        return 1
    try:
        apart = [it for it in names if os.path.dirname(it)]
        if apart:
            raise Stop("%s: call this in the folder of the jobs" % apart[0])
        programs = Programs()
        lines = rounds([Job(it, programs) for it in names], "--force" in words)
    except ProgramFault as fault:
        print("together: %s" % shown(str(fault)), file=sys.stderr)
        return 2
    except Unread as fault:
        print("together: %s" % shown(fault.line()), file=sys.stderr)
        return 2
    except Stop as stop:
        print("together: %s" % shown(str(stop)), file=sys.stderr)
        return stop.status
    print("\n".join(lines))
    return 0
