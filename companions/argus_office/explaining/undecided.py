"""`undecided: ..` and `no rounding`: what it means for this job, and what to try (docs/MANUAL.md,
Sizes and times)."""

import re
from typing import List

from argus_office.reading.book import Book
from argus_office.reading.files import grouped, listed, shown_name
from argus_office.reading.job import Job

TIMES = ("Times (the manual, Sizes and times): two variables with levels, 2,397 hidden cells: 7 "
         "s; 6,837: 6 min; three variables, 152 hidden: 7 s.")


def table_text(book: Book, table: int) -> str:
    """How many cells a table has, and how many of them are sensitive."""
    cells = [cell for cell in range(len(book.cells)) if table in book.within[cell]]
    primary = sum(1 for cell in cells if book.cells[cell].status == "primary")
    names = " by ".join(shown_name(book.variables[k].name) for k in book.tables[table])
    return "table %d (%s) has %s cells, %s of them sensitive" % (
        table + 1, names, grouped(len(cells)), grouped(primary))


def largest(book: Book) -> int:
    """The table with the most sensitive cells, and of these the most cells."""
    def size(table: int) -> List[int]:
        cells = [cell for cell in range(len(book.cells)) if table in book.within[cell]]
        return [sum(1 for cell in cells if book.cells[cell].status == "primary"), len(cells)]

    return max(range(len(book.tables)), key=size)


def chained(book: Book, cell: int) -> int:
    """How many sensitive cells hang together with a cell by sums of sensitive cells alone: so many
    are in its component at least."""
    of: List[List[int]] = [[] for _ in book.cells]
    relations = book.relations()
    for number, (total, parts) in enumerate(relations):
        for it in [total] + parts:
            of[it].append(number)
    seen, waiting, done = {cell}, [cell], set()
    while waiting:
        for number in of[waiting.pop()]:
            if number not in done:
                done.add(number)
                new = [
                    it for it in [relations[number][0]] + relations[number][1]
                    if it not in seen and book.cells[it].status == "primary"
                ]
                seen.update(new)
                waiting += new
    return len(seen)


def where(book: Book, cell: int) -> List[str]:
    """The cell, its tables, and the largest table."""
    table = largest(book)
    said = "Cell %d is [%s] in %s; at least %s sensitive cells hang together with it by sums." % (
        cell, book.called(cell), book.tables_text(cell), grouped(chained(book, cell)))
    size = table_text(book, table)
    return [
        said,
        "%s, the most of the job's %d tables." % (size[:1].upper() + size[1:], len(book.tables))
        if len(book.tables) > 1 else size[:1].upper() + size[1:] + "."
    ]


def fewer(book: Book) -> str:
    """What makes fewer hidden cells: the variable with the most codes, fewer variables, fewer
    tables."""
    table = largest(book)
    many = [len(it) for it in book.places(table)]
    at = max(range(len(many)), key=many.__getitem__)
    said = [
        "coarser codes, above all of %s, which has %s" %
        (shown_name(book.variables[book.tables[table][at]].name), grouped(many[at] - 1))
    ]
    if len(book.tables[table]) > 2:
        said.append("%d variables in that table in place of %d" %
                    (len(book.tables[table]) - 1, len(book.tables[table])))
    if len(book.tables) > 1:
        said.append("one table fewer (but not in a job of its own: tables that share cells belong "
                    "together)")
    return "; or ".join(said)


def explain(job: Job, answer: str) -> List[str]:
    """What to say of the line, by its kind."""
    found = re.match(
        r"undecided: (work|wide|size), cell (\d+) (above|below)(?:, (\d+) "
        r"(?:steps|hidden))?\s*$", answer)
    if answer.startswith("no rounding"):
        return no_rounding(job)
    if found is None:
        return nodes(job, answer)
    book, kind, cell = Book(job), found[1], int(found[2])
    if cell >= len(book.cells):
        return [
            "The tables have only %d cells now; have the files changed since argus read them?" %
            len(book.cells)
        ]
    lines = where(book, cell)
    if kind == "work":
        return work(book, "up" if found[3] == "above" else "down", lines)
    if kind == "wide":
        decimals = " The response has %d decimals (%s): fewer help." % (book.response.decimals(
        ), book.metadata.place(book.response.line)) if book.response.decimals() else ""
        return [
            "A question about this cell needs numbers of more than 128 bits. More steps don't "
            "help."
        ] + lines + ["What helps: %s.%s" % (fewer(book), decimals)]
    return [
        "%s hidden cells hang together with it; argus takes 4,000 at most." %
        grouped(int(found[4] or 0))
    ] + lines + [
        "What helps: %s; or rules that make fewer cells sensitive. Don't split the job." %
        fewer(book), TIMES
    ]


def work(book: Book, way: str, lines: List[str]) -> List[str]:
    """What to say of a question that took all its steps; LINES are those about the cell."""
    steps, line = book.job.limit("STEPS", 100000)
    there = "the job has no <STEPS>, so %s hold" % grouped(steps)
    if line:
        there = "%s: <STEPS> %d" % (book.job.place(line), steps)
    return [
        "The question how far this cell can go %s took all the steps that it may (%s)." %
        (way, there), *lines,
        "Write <STEPS> %d and run again; a question may then take ten times as long. What always "
        "helps: %s." % (min(10 * steps, 10**12), fewer(book)), TIMES
    ]


def nodes(job: Job, answer: str) -> List[str]:
    """What to say of a search for a rounding that took all its choices."""
    if not answer.startswith("undecided: nodes"):
        return []
    limit, line = job.limit("NODES", 1000000)
    there = "%s: <NODES> %d" % (
        job.place(line), limit) if line else "the job has no <NODES>, so %s hold" % grouped(limit)
    return [
        "The search for a rounding has looked at all the choices that it may (%s), and found "
        "none; there may be one." % there,
        "Write <NODES> %d and run again; take another base in <SUPPRESS> RND(b); or "
        "fewer variables in one table: one or two flat ones always round." %
        min(10 * limit, 10**12)
    ]


def no_rounding(job: Job) -> List[str]:
    """What to say where no rounding exists."""
    line = next((it for it, _ in job.of("SUPPRESS")), None)
    where_ = "%s: RND(%d). " % (job.place(line.number), job.method().number) if line else ""
    wide = [str(k + 1) for k, (_, it) in enumerate(job.tables()) if len(it.variables) > 2]
    why = "Table %s has three variables or more" % listed(
        wide) if wide else "The job has several tables" if len(
            job.tables()) > 1 else "A variable has levels"
    return [
        "%sNo multiples of the base next to the true values add up in all tables. That can "
        "happen with three variables, levels, or several tables." % where_,
        "%s here. Take another base, or fewer variables in one table: one table by one "
        "variable, or by two without levels, always rounds." % why
    ]
