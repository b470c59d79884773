"""What `check`, `intervals`, `audit` and `migrate` refuse or don't accept: the place in the
certificate, the table or the file, and what to look at."""

import itertools
import os
import re
from fractions import Fraction
from typing import Dict, List, Optional, Tuple

from argus_office.explaining.texts import absent, others_named
from argus_office.reading.book import Book, digits
from argus_office.reading.certificate import lines_with
from argus_office.reading.files import (BLANKS, Unread, bare, content, grouped, lines_of, listed,
                                        shown, shown_name)
from argus_office.reading.job import Job, written
from argus_office.reading.records import Microdata
from argus_office.reading.trees import Tree, tree_of

READ = {
    "Version":
    "Its first line isn't `%s`, perhaps because an editor added a CR or a byte-order mark.",
    "Shape": "The line begins with a word that isn't wanted there, has too few or too many words, "
    "or doesn't end with LF.",
    "Number": "A number isn't written as argus writes it (no zeros in front, no plus, no blanks "
    "around it), or is out of range.",
    "Order": "A list in the line doesn't ascend, or has a cell or a relation twice.",
    "NoEnd": "The file ends before the line `end`: was it cut off?",
}
WHY = {
    "Den": "its denominator is below 1",
    "Order": "at place %s its numbers don't ascend or name nothing",
    "Shown": "cell %s is shown, and it moves",
    "Bound": "cell %s leaves its bounds (0, or those of its b line)",
    "Relation": "relation %s doesn't hold",
    "Wide": "a number at cell %s has more than 128 bits",
    "Unbounded": "hidden cell %s counts upwards, and has no upper bound",
    "NotBelow": "what they add up to isn't less than its level",
}

# How many numbers stand behind a kind of `not accepted` or `not guarded` at least.
NUMBERS = {"Counts": 0, "Method": 0, "Release": 2, "Open": 2}

# The faults of a line of a certificate: its word, and what is wrong with it.
OF_CERTIFICATE = {
    "Step":
    ("step", "The plan of the inputs has another step at this place. Look for what has changed "
     "since: the rules, <COST>, <SUPPRESS>, the a priori files, the records."),
    "RepairCell":
    ("repair", "This repair hides a cell that may not be hidden, is hidden already, or doesn't "
     "count in its multipliers."),
    "Repair":
    ("repair", "The multipliers of this repair don't show that its cell had to be hidden: %s."),
    "WorldCell":
    ("world", "Complete tables are wanted for each sensitive cell in ascending order, above and "
     "then below; this one isn't for the next, or is missing."),
    "World": ("world", "It isn't a complete table: %s."),
    "NeedCell": ("need",
                 "Needs are wanted for each further hidden cell in ascending order; this one isn't "
                 "for the next, or is missing."),
    "Need": ("need", "The multipliers of this need don't show that its cell must stay hidden: %s."),
}
# The same of a line of a contributors' file.
OF_CONTRIBUTORS = {
    "NeedCell":
    ("need", "It isn't the need of the next extra cell, is missing or too many, or speaks of a "
     "row or a cell for which there is none."),
    "Need": ("need", "Its multipliers don't show that its extra cell must stay hidden: %s."),
    "GuardCell": ("guard", "It isn't for a sensitive cell, or is out of order."),
    "Guard": ("guard", "It isn't a complete table: %s."),
}


def is_whole(words: List[str]) -> bool:
    """Whether the words are a kind with the numbers that it has."""
    many = NUMBERS.get(words[0], 1) if words else 1
    return len(words) > many and all(re.fullmatch(r"[0-9]{1,30}", it) for it in words[1:many + 1])


def unreadable(name: Optional[bytes], line: int, kind: str, first: str) -> List[str]:
    """What to say of `certificate line N: KIND` and `contributors line N: KIND`."""
    if name is None or kind not in READ:
        return []
    try:
        data = content(name)
    except Unread as fault:
        return [fault.text()]
    lines = lines_of(data)
    there = shown(lines[line - 1]) if 0 < line <= len(lines) else "the end of the file"
    why = READ[kind] % first if "%s" in READ[kind] else READ[kind]
    if kind == "Shape" and b"end" in lines[:line - 1]:
        why = "Line %d is `end`, and nothing may follow it." % (lines.index(b"end") + 1)
    elif kind == "Shape" and line == len(lines) and not data.endswith(b"\n"):
        why = ("The file ends within this line, or without its LF: was it cut off, or saved by an "
               "editor?")
    return [
        "%s, line %s: %s" % (shown_name(name), grouped(line), there), why,
        "Take the file as argus wrote it, or run the job again."
    ]


def nth_line(name: Optional[bytes], word: str, number: int) -> str:
    """Where the line of a certificate or a contributors' file is, counted from 0 among those of its
    word."""
    try:
        found = lines_with(content(name or b""), word.encode())
    except Unread:
        return ""
    if number >= len(found):
        return "%s has %d `%s` line%s. " % (shown_name(name or b""), len(found), word,
                                            "" if len(found) == 1 else "s")
    return "%s, line %d: %s. " % (shown_name(name or b""), found[number][0],
                                  shown(found[number][1]))


def inner(words: List[str]) -> str:
    """The fault of a complete table or of multipliers, in words."""
    said = WHY.get(words[0], "") if words else ""
    return said % words[1] if "%s" in said and len(words) > 1 else said


def not_accepted(job: Job, words: List[str]) -> List[str]:
    """What to say of `not accepted: KIND ..`; the words are the kind and its numbers."""
    if not is_whole(words):
        return []
    kind, numbers = words[0], words[1:]
    certificate = job.file("CERTIFICATE")
    if kind in ("PrimaryShown", "FixedHidden", "Outside", "NotReached", "Rounded"):
        return cell_fault(job, kind, int(numbers[0]), numbers[1:])
    if kind == "Release":
        return release(job, int(numbers[0]), int(numbers[1]))
    if kind == "Relation":
        return relation(job, int(numbers[0]))
    if kind in OF_CERTIFICATE:
        return [
            line_fault(certificate, OF_CERTIFICATE[kind], numbers).strip(),
            "Was the certificate altered, or did its inputs change since it was written? Run the "
            "job again, and publish what that run writes."
        ]
    return of_whole(job, kind)


def line_fault(name: Optional[bytes], of: Tuple[str, str], numbers: List[str]) -> str:
    """Where the line at fault is, and what is wrong with it."""
    word, said = of
    return nth_line(name, word, int(
        numbers[0])) + (said % inner(numbers[1:]) if "%s" in said else said)


def of_whole(job: Job, kind: str) -> List[str]:
    """A fault of the certificate as a whole."""
    certificate = job.file("CERTIFICATE")
    if kind == "Counts":
        return [
            "The certificate %s counts other cells or relations than the inputs of this job "
            "have." % shown_name(certificate or b""),
            "It belongs to another job, or the records, the metadata or a hierarchy "
            "have changed since. Run the job again."
        ]
    if kind == "Method":
        line = next((it for it, _ in job.of("SUPPRESS")), None)
        return [
            "The certificate %s is of another method than the job's (%s)." %
            (shown_name(certificate or b""), "%s: %s" %
             (job.place(line.number), bare(line.raw)) if line else "<SUPPRESS>"),
            "Has <SUPPRESS> changed since, or does another job write the same "
            "certificate?"
        ]
    return []


def cell_fault(job: Job, kind: str, cell: int, more: List[str]) -> List[str]:
    """A fault that names a cell: the cell by its codes, and what has changed."""
    book = Book(job)
    if cell >= len(book.cells):
        return ["The tables have only %d cells now; have the files changed?" % len(book.cells)]
    it, name = book.cells[cell], "[%s]" % book.called(cell)
    value = "%s from %d record%s" % (book.show(Fraction(
        it.truth)), it.freq, "" if it.freq == 1 else "s")
    again = "Run the job again, and publish what that run writes."
    if kind in ("PrimaryShown", "FixedHidden"):
        return status_fault(book, kind, cell, value)
    if kind == "NotReached":
        side = more[0] if more else ""
        level = it.up if side == "above" else it.down
        return [
            "Cell %d is %s, %s. It must be open by %s %s, and its complete table moves it by "
            "less." % (cell, name, value, book.show(
                Fraction(level)), "upwards" if side == "above" else "downwards"),
            "The rules or its pl line have changed since the release was made, or the "
            "certificate was altered. " + again
        ]
    if kind == "Rounded":
        return [
            "Cell %d is %s in %s, %s. Its value in the table isn't a multiple of %d, or is "
            "that much or more from the true one." %
            (cell, name, book.tables_text(cell), value, job.method().number),
            "The base in <SUPPRESS> or a record has changed since, or the table was "
            "altered. " + again
        ]
    return [
        "Cell %d is %s, %s. It is hidden, and is neither sensitive nor in a step or a repair "
        "of the certificate." % (cell, name, value),
        "A cell that needn't be hidden makes a release worse. " + again
    ]


def status_fault(book: Book, kind: str, cell: int, value: str) -> List[str]:
    """A sensitive cell that is shown, or a hidden one that may not be."""
    it, name = book.cells[cell], "[%s]" % book.called(cell)
    again = "Run the job again, and publish what that run writes."
    if kind == "PrimaryShown":
        why = "nothing in these files"
        if it.status == "primary":
            stated = ["its u line (%s)" % it.said["u"].place()] if "u" in it.said else []
            why = listed(it.rules + stated)
        return [
            "Cell %d is %s in %s, %s: sensitive by %s." %
            (cell, name, book.tables_text(cell), value, why),
            "The certificate doesn't hide it: the release was made without that rule or line. " +
            again
        ]
    why = "it may be hidden by these files"
    if not it.freq:
        why = "it has no records"
    elif "p" in it.said:
        why = "%s says that it is always shown" % it.said["p"].place()
    return [
        "Cell %d is %s in %s, %s. It is x, and may not be: %s." %
        (cell, name, book.tables_text(cell), value, why),
        "The release was made by other inputs, or altered. " + again
    ]


def relation(job: Job, number: int) -> List[str]:
    """What to say of `not accepted: Relation R`."""
    book = Book(job)
    relations = book.relations()
    if number >= len(relations):
        return []
    total, parts = relations[number]
    return [
        "Relation %d says that [%s] is the sum of %s; in the tables it isn't." %
        (number, book.called(total), listed(["[%s]" % book.short(it) for it in parts], 6)),
        "Was a table edited by hand, or was each cell rounded by itself? Take the "
        "tables as argus writes them."
    ]


def expected_line(book: Book, table: int, line: int) -> Optional[Tuple[List[bytes], Optional[int]]]:
    """The fields of a line of a table: names in line 1, else codes, with the cell."""
    spans = book.tables[table]
    if line == 1:
        return [book.variables[k].name for k in spans] + [book.response.name], None
    for k, places in enumerate(itertools.product(*book.places(table))):
        if k == line - 2:
            return [book.trees[s].codes[place]
                    for s, place in zip(spans, places)], book.number[book.name_at(spans, places)]
    return None


def field_text(code: bytes) -> bytes:
    """A field of a table as argus writes it: between quotes where it needs them."""
    return b'"%s"' % code.replace(b'"', b'""') if re.search(rb'[,"\r\n]', code) else code


def line_there(lines: List[bytes], line: int) -> str:
    """A line of a table as it is shown."""
    if line <= len(lines) and (lines[line - 1] or line < len(lines)):
        return shown(lines[line - 1])
    return "the end of the file"


def release(job: Job, table: int, line: int) -> List[str]:
    """What to say of `not accepted: Release T L`: the line as it is, and as the inputs have it."""
    name = next((it.file for _, it in job.outputs() if it.table == table), None)
    book = Book(job)
    if name is None or not 1 <= table <= len(book.tables):
        return []
    try:
        lines = content(name).split(b"\n")
    except Unread as fault:
        return [fault.text()]
    there = line_there(lines, line)
    wanted = expected_line(book, table - 1, line)
    first = "%s, line %d: %s" % (shown_name(name), line, there)
    again = ("A spreadsheet that saves the file changes line ends, quotes or codes. Take the table "
             "as argus wrote it, or run the job again.")
    if wanted is None:
        return [first, "The table has no such line: it ends with line %d." % (line - 1), again]
    fields, cell = wanted
    said = b",".join(map(field_text, fields))
    if cell is None:
        return [first, "It should be %s." % shown(said, 120), again]
    if job.method().word == "RND":
        return [
            first,
            "It should begin with %s and have a number, the same as an earlier table has for "
            "this cell." % shown(said + b",", 120), again
        ]
    value = b"," + digits(book.cells[cell].truth, book.decimals).encode()
    if line <= len(lines) and re.fullmatch(
            re.escape(said) + rb",(x|[0-9]+(\.[0-9]+)?)", lines[line - 1]):
        again = ("Either the table was altered, or the records, the metadata or the a priori files "
                 "have changed since it was made. Run the job again.")
    if there.endswith(('\\x0d"', '\\r"')):
        first += " (a CR at the end is one byte too many)"
    return [
        first,
        "By the inputs it is %s, or with x in place of the value where the certificate hides "
        "the cell." % shown(said + value, 120), again
    ]


def not_guarded(job: Job, words: List[str]) -> List[str]:
    """What to say of `not guarded: KIND ..`."""
    if not is_whole(words):
        return []
    kind, numbers, name = words[0], words[1:], job.file("CONTRIBUTORS")
    again = ("Was the file altered, or did its inputs change since it was written? Run the job "
             "again.")
    if kind == "Open":
        book = Book(job)
        row, cell = int(numbers[0]), int(numbers[1])
        if not (1 <= row <= len(book.rows) and cell < len(book.cells)):
            return []
        record = book.rows[row - 1].record
        return [
            "Against the firm of row %d (%s, line %d) cell %d, [%s], isn't shown to be open "
            "%s: no complete table of the certificate or of %s does it." %
            (row, shown_name(book.data.name), record.line, cell, book.called(cell),
             "upwards" if numbers[2:] == ["above"] else "downwards", shown_name(name or b"")), again
        ]
    if kind == "Cell":
        return [
            nth_line(name, "extra", 0) +
            "Extra cell %s of it doesn't ascend, may not be hidden, or is hidden already (they "
            "count from 0)." % numbers[0], again
        ]
    if kind not in OF_CONTRIBUTORS:
        return []
    return [line_fault(name, OF_CONTRIBUTORS[kind], numbers), again]


def out_name(job: Optional[Job], words: List[str]) -> List[str]:
    """What to say of `refused: out: OutName`."""
    if words[:1] == ["migrate"]:
        return [
            "Both names are %s: the new certificate gets a name of its own." %
            shown(words[-1].encode("utf-8", "surrogateescape"))
        ]
    if job is None:
        return []
    line = next((at for at, it in written(job) if it == job.name), None)
    if line is not None:
        return [
            "%s: %s" % (job.place(line.number), bare(line.raw)),
            "That is the job itself, and the run would write over it. Give the output another "
            "name."
        ]
    if len(words) == 3:
        out = words[2].encode("utf-8", "surrogateescape")
        where = next((job.place(at.number) for at, it in written(job) if it == out), None)
        said = "it is the job itself" if out == job.name else "the job reads it"
        said = "the job writes it (%s)" % where if where else said
        return [
            "%s can't be the name of the new file: %s." % (shown_name(out), said),
            "Give another name, as `argus %s %s ranges.out`." % (words[0], shown_name(job.name))
        ]
    return [
        "The new file would have the name of the job, of a file that the job names, or of a "
        "hierarchy or code list that it reads. Give another name."
    ]


def absent_output(job: Job, what: str, table: int) -> List[str]:
    """A certificate, contributors' file or table that `check` or `intervals` looks for."""
    if what == "table":
        line, name = next(((at, it.file) for at, it in job.outputs() if it.table == table),
                          (None, None))
    else:
        line, name = next(((at, it) for at, it in job.of(what) if isinstance(it, bytes)),
                          (None, None))
    if line is None or name is None:
        return []
    like = others_named(name)[0]
    more = absent(name, "", job.name) if like is not None or b"/" in name else [
        "There is no such file in this folder (%s)." % shown_name(os.fsencode(os.getcwd()))
    ]
    return ["%s: %s" % (job.place(line.number), bare(line.raw))] + more + [
        "`argus run %s` writes it: run the job first, in the same folder." % shown_name(job.name)
    ]


def too_many_cells(job: Job, table: int) -> List[str]:
    """What to say of `refused: table T: TooManyCells`: how many cells each table has, by its codes.
    """
    data = Microdata(job)
    records = list(data.rows())
    trees: Dict[bytes, Tree] = {
        it.name: tree_of(it, {it.field(r.raw).strip(BLANKS)
                              for r in records})
        for it in data.names.spanning
    }
    lines = []
    for t, (line, it) in enumerate(job.tables()[:table], 1):
        many = [(len(trees[name].within(job.level(t, name))) if name in trees else 1, name)
                for name in it.variables]
        product = 1
        for count, _ in many:
            product *= count
        lines.append("%s: table %d has %s cells (%s)." %
                     (job.place(line.number), t, grouped(product), " by ".join(
                         "%s %s" % (grouped(count), shown_name(name)) for count, name in many)))
    return lines[-3:] + [
        "A job has 60,000 cells at most, shared ones counted once. Take coarser codes, fewer "
        "variables in one table, or a table fewer."
    ]
