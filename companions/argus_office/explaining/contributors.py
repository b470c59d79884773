"""`cannot protect cell C SIDE from row R`: the firm, what it knows, what is left of the cell
without it, and the `pl` lines that help.

In tables with levels this comes often: the level of a subtotal that is mostly one firm's is as
large as the rule says, and against that firm only what the others add can be open. The office then
states that rest as the lower level, for all such cells at once.
"""

from fractions import Fraction
from typing import Dict, List, NamedTuple, Optional, Set, Tuple

from argus_office.explaining.mending import PriorLines
from argus_office.explaining.protection import (Question, Sum, by_lines, holders, level_of,
                                                levels_text, reach_text, remedy, row_line)
from argus_office.explaining.rooms import Rooms, knowers
from argus_office.reading.book import Book
from argus_office.reading.files import bytes_range, grouped, listed, shown, shown_name
from argus_office.reading.priors import Statement

# So many lines for a priori files are printed beside the explanation; more are only counted.
MOST_LINES = 20
SEPARATORS = (b",", b";", b"|", b"/", b"#", b"~")


class Stated(NamedTuple):
    """The levels that a cell can have at most against every firm that stands alone, in units."""

    down: int
    up: int


class Remedy:
    """The `pl` lines for all cells whose levels go past what can be open, and the cells for which
    no such line is allowed."""
    def __init__(self, book: Book, question: Question, reach: Fraction):
        self.book = book
        self.rooms = Rooms(book, book.relations())
        self.levels: Dict[int, List[int]] = {}
        for cell, it in enumerate(book.cells):
            if it.status == "primary":
                room = self.rooms.own(cell)
                self.lower(cell, room.down, room.up)
        for _, known in knowers(book):
            if not self.rooms.is_done():
                break
            for cell, room in self.rooms.against(known).items():
                self.lower(cell, room.down, room.up)
        if question.side == "below":
            self.lower(question.cell, int(reach), None)
        else:
            self.lower(question.cell, book.cells[question.cell].down, int(reach))
        self.closed = sorted(cell for cell, (_, up) in self.levels.items() if up < 1)
        self.stated = {cell: Stated(*it) for cell, it in sorted(self.levels.items()) if it[1] >= 1}

    def lower(self, cell: int, down: int, up: Optional[int]) -> None:
        """Takes what a cell can go at most, where its levels are beyond that."""
        it = self.book.cells[cell]
        if it.status != "primary":
            return
        now = self.levels.get(cell, [it.down, it.up])
        new = [min(now[0], down), now[1] if up is None else min(now[1], up)]
        if new != [it.down, it.up]:
            self.levels[cell] = new

    def by_table(self) -> List[Tuple[int, bytes, List[bytes]]]:
        """For each table that is needed, its separator and its lines. A cell of several tables goes
        where the job has a file already."""
        given = {it.table - 1: it for _, it in self.book.job.priors()}
        groups: Dict[int, List[int]] = {}
        for cell in self.stated:
            within = self.book.within[cell]
            groups.setdefault(next((t for t in within if t in given), within[0]), []).append(cell)
        found = []
        for table, cells in sorted(groups.items()):
            codes = b"".join(code for cell in cells for code in self.book.codes_in(cell, table))
            separator = given[table].separator if table in given else next(
                (it for it in SEPARATORS if it not in codes), b",")
            found.append((table, separator, [
                row_line(self.book, cell, *self.stated[cell], table, separator) for cell in cells
            ]))
        return found

    def older(self) -> List[Statement]:
        """The pl lines that the new ones replace."""
        return [
            self.book.cells[it].said["pl"] for it in self.stated
            if "pl" in self.book.cells[it].said
        ]


def file_text(book: Book, table: int, separator: bytes) -> str:
    """Where the lines go: the table's a priori file, or a new one with its line of the job."""
    given = next((it for _, it in book.job.priors() if it.table == table + 1), None)
    if given is not None:
        return "Add to %s:" % shown_name(given.file)
    name = "levels.hst" if len(book.tables) == 1 else "levels%d.hst" % (table + 1)
    return "Save as %s, and add to the job: <APRIORI> \"%s\",%d,\"%s\"" % (name, name, table + 1,
                                                                           separator.decode())


def firm_text(book: Book, row: int) -> str:
    """The record of a row: its line, its codes and its amount."""
    it = book.rows[row - 1]
    codes = listed([
        "%s %s" % (shown_name(v.name), shown(tree.codes[place])[1:-1] or "(empty)")
        for v, tree, place in zip(book.variables, book.trees, it.places)
    ])
    record = "record %s" % grouped(it.record.number)
    also = "%s, line %d" % (shown_name(book.data.name), it.record.line)
    rows = "; rows are the records that weren't skipped" if row != it.record.number else ""
    response = book.response
    return "Row %d is %s (%s%s): %s, and %s, %s, is %s." % (
        row, also, record, rows, codes, shown_name(response.name),
        bytes_range(response.first or 1, response.last()), shown(response.field(it.record.raw)))


def knows_text(book: Book, known: Set[int], cell: int) -> str:
    """In how many cells a firm is alone, and in which."""
    inner = sorted(known)
    return "Its firm is alone in %d cell%s, and so knows %s: %s." % (
        len(inner), "" if len(inner) == 1 else "s", "it" if len(inner) == 1 else "them",
        listed(["[%s]" % book.short(it) for it in inner], 4))


def why_text(book: Book, question: Question, it: Sum, reach: Fraction) -> str:
    """Why the cell can't go further: the firm's own part, or the sum."""
    own = book.rows[question.row - 1].amount()
    truth = book.cells[question.cell].truth
    if question.side == "below" and question.cell in book.cells_of(
            question.row) and reach == truth - own:
        return "Without the firm's own %s no more than %s of it is left." % (book.show(
            Fraction(own)), book.show(reach))
    return "It is %s." % it.text()


def explain(book: Book, question: Question) -> Tuple[List[str], List[PriorLines]]:
    """What to say of `cannot protect cell C SIDE from row R`: the explanation, and the lines for a
    priori files with where they go."""
    if question.cell >= len(book.cells) or not 1 <= question.row <= len(book.rows):
        return [
            "The tables have only %d cells and %d rows now; have the files changed since argus "
            "read them?" % (len(book.cells), len(book.rows))
        ], []
    known = dict(knowers(book)).get(question.row, set())
    it = Sum(book, book.relations(), question, known)
    reach = it.reach()
    lines = [
        firm_text(book, question.row) + " " + knows_text(book, known, question.cell),
        levels_text(book, question.cell)
    ]
    if reach is None or reach >= level_of(book, question):
        far = ""
        if reach is not None:
            far = " By the files as they are now that is far enough; have they changed?"
        return lines + [reach_text(book, question, reach) + far], []
    lines.append(reach_text(book, question, reach) + " " + why_text(book, question, it, reach))
    given = Remedy(book, question, reach)
    held = holders(book, it)
    if question.cell in given.closed or question.cell not in given.stated:
        return lines + held + [
            remedy(book, it) + " No pl line helps: an upper level is one unit at least."
        ], []
    return lines + closing(book, given, it), table_lines(book, given)


def closing(book: Book, given: Remedy, it: Sum) -> List[str]:
    """What the lines give up, and what they don't reach."""
    count = len(given.stated)
    lines = [
        "Against a firm only what the others add can be open. Where that is enough for the "
        "office, it states that rest as the level%s; argus then keeps "
        "%s open that far and no further, to everybody:" %
        ((" of the cell", "it") if count == 1 else (" of these %d cells" % count, "them"))
    ]
    if it.shown_by_line():
        lines.insert(
            0, "Always shown, by a p line: %s. %s" %
            (by_lines(book, it.shown_by_line()), remedy(book, it)))
    also = []
    older = [it.place() for it in given.older()]
    if older:
        also.append("Delete the pl line%s %s, in whose place the new one%s." %
                    (("", listed(older, 4), " comes") if len(older) == 1 else
                     ("s", listed(older, 4), "s come")))
    if given.closed:
        also.append(
            "No pl line helps %s: p lines, b lines or empty cells hold %s." %
            (listed(["[%s]" % book.short(k)
                     for k in given.closed], 4), "it" if len(given.closed) == 1 else "them"))
    if not given.rooms.is_done():
        also.append("Not every firm was looked at: further cells may come.")
    return lines[:-1] + ([" ".join(also)] if also else []) + lines[-1:]


def table_lines(book: Book, given: Remedy) -> List[PriorLines]:
    """The lines for a priori files, with where they go and what they replace; and for a file that
    only loses lines, these."""
    replaced: Dict[int, List[int]] = {}
    for it in given.older():
        replaced.setdefault(it.table, []).append(it.line)
    found = [
        PriorLines(
            file_text(book, table, separator), table + 1, separator, rows,
            replaced.pop(table + 1, []))
        for table, separator, rows in given.by_table()
    ]
    separators = {it.table: it.separator for _, it in book.job.priors()}
    return found + [PriorLines("", k, separators[k], [], it) for k, it in sorted(replaced.items())]
