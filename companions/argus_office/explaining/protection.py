"""`cannot protect cell C SIDE`: the cell, how far it can go at most, what holds it there, and what
helps.

The multipliers of the answer add relations up to a sum that gives the cell by others. It is exact:
whatever is hidden besides, the cell goes no further than its bound sum over the denominator
(docs/MANUAL.md, One complete table and one need by pencil).
"""

import re
from fractions import Fraction
from typing import Dict, List, NamedTuple, Optional, Set, Tuple

from argus_office.explaining.rooms import Rooms
from argus_office.reading.book import Book, Relation, digits
from argus_office.reading.files import listed, shown, shown_name


class Question(NamedTuple):
    """What argus says: the cell, the side, the row against which (0 for the tables' readers), the
    denominator and the multipliers."""

    cell: int
    side: str
    row: int
    den: int
    by_relation: List[Tuple[int, int]]

    def sign(self) -> int:
        """1 for the side above, -1 for that below."""
        return 1 if self.side == "above" else -1

    def way(self) -> str:
        """The side as the way that leads there."""
        return "upwards" if self.side == "above" else "downwards"


def question_of(lines: List[str]) -> Optional[Question]:
    """The question of the answer's lines; den 0 where the line of multipliers isn't there."""
    found = re.match(r"cannot protect cell (\d+) (above|below)(?: from row (\d+))?\s*$", lines[0])
    if not found:
        return None
    given = (it.split() for it in lines[1:])
    said: List[str] = next((it for it in given if it[:1] == ["multipliers"]), [])
    pairs = [it.split(":") for it in said[2:]]
    if len(said) < 2 or not said[1].isdigit() or any(
            len(it) != 2 or not re.fullmatch(r"\d+", it[0]) or not re.fullmatch(r"-?\d+", it[1])
            for it in pairs):
        return Question(int(found[1]), found[2], int(found[3] or 0), 0, [])
    return Question(int(found[1]), found[2], int(found[3] or 0), int(said[1]),
                    [(int(a), int(b)) for a, b in pairs])


class Sum:
    """The sum that the multipliers give: for each other cell how often it counts in the asked one,
    and how far that lets it go."""
    def __init__(self, book: Book, relations: List[Relation], question: Question, known: Set[int]):
        self.book, self.question, self.known = book, question, known
        self.used = [
            relations[number] for number, _ in question.by_relation if number < len(relations)
        ]
        found: Dict[int, int] = {question.cell: question.sign() * question.den}
        for number, by in question.by_relation:
            if number < len(relations):
                total, parts = relations[number]
                found[total] = found.get(total, 0) + by
                for part in parts:
                    found[part] = found.get(part, 0) - by
        self.terms = {cell: by for cell, by in found.items() if by}

    def is_held(self, cell: int) -> bool:
        """Whether a cell can't move: it is always shown, or the firm knows it."""
        return cell in self.known or not self.book.cells[cell].is_hidable()

    def reach(self) -> Optional[Fraction]:
        """How far the cell can go at most to the question's side, in units; nothing where the
        multipliers leave it open."""
        if not self.question.den:
            return None
        total = 0
        for cell, by in self.terms.items():
            it = self.book.cells[cell]
            if self.is_held(cell):
                continue
            end = it.high if by > 0 else it.low
            if end is None:
                return None
            total += by * (end - it.truth)
        return Fraction(total, self.question.den)

    def text(self, most: int = 7) -> str:
        """The asked cell by the others: `North - North · Steel`."""
        said = []
        for cell, by in sorted(self.terms.items(),
                               key=lambda it: (-it[1] * self.question.sign(), it[0])):
            times = Fraction(by * self.question.sign(), self.question.den)
            often = "" if abs(times) == 1 else "%s times " % abs(times)
            said.append("%s %s[%s]" % ("-" if times < 0 else "+", often, self.book.short(cell)))
        if not said:
            return "nothing but itself"
        cut = said[:most] + ["and %d more" % (len(said) - most)] if len(said) > most else said
        return " ".join(cut)[2:] if cut[0].startswith("+") else " ".join(cut)

    def shown_by_line(self) -> List[int]:
        """Cells of the sum that a p line shows."""
        return sorted(it for it in self.terms if it not in self.known
                      and not self.book.cells[it].is_hidable() and self.book.cells[it].freq)

    def empty(self) -> List[int]:
        """Cells of the sum that have no records."""
        return sorted(it for it in self.terms if not self.book.cells[it].freq)

    def ends(self) -> List[Tuple[int, str]]:
        """Hidden cells of the sum whose bounds hold the asked cell, each with what is known of it.
        """
        found = []
        for cell, by in sorted(self.terms.items()):
            it = self.book.cells[cell]
            if self.is_held(cell):
                continue
            where = " (%s: b)" % it.said["b"].place() if "b" in it.said else ""
            limit = it.high if by > 0 else it.low
            if limit is not None:
                found.append(
                    (cell, "[%s] has %s and can't %s %s%s" %
                     (self.book.short(cell), self.book.show(Fraction(it.truth)),
                      "pass" if by > 0 else "fall below", self.book.show(Fraction(limit)), where)))
        return found


def levels_text(book: Book, cell: int) -> str:
    """The cell, its tables, its value, and why it is sensitive."""
    it = book.cells[cell]
    why = "primary by %s" % " and ".join(
        it.rules + (["its u line"] if "u" in it.said else [])
    ) if it.status == "primary" else "not primary in these files"
    levels = "levels of %s" % it.said["pl"].place() if "pl" in it.said else why
    return "Cell %d is [%s] in %s: %s from %d record%s (%s)." % (
        cell, book.called(cell), book.tables_text(cell), book.show(Fraction(
            it.truth)), it.freq, "" if it.freq == 1 else "s", levels)


def level_of(book: Book, question: Question) -> int:
    """The level of the asked cell to the question's side."""
    it = book.cells[question.cell]
    return it.up if question.side == "above" else it.down


def reach_text(book: Book, question: Question, reach: Optional[Fraction]) -> str:
    """How far the cell is to be open, and how far it can go."""
    wanted = "It must be open by %s %s" % (book.show(Fraction(level_of(book,
                                                                       question))), question.way())
    if not question.den:
        return wanted + (
            ". How far it can go, the line `multipliers ..` of the answer says: give it as the "
            "next argument.")
    if reach is None:
        return wanted + (
            ". By the files as they are now the multipliers leave it open; have they changed "
            "since argus read them?")
    if not reach:
        return wanted + ", and can't go %s at all." % ("up" if question.side == "above" else "down")
    return wanted + ", and can go by %s at most." % book.show(reach)


def by_lines(book: Book, cells: List[int]) -> str:
    """Cells with the p lines that show them."""
    return listed([
        "[%s] (%s)" % (book.short(it), book.cells[it].said["p"].place())
        if "p" in book.cells[it].said else "[%s]" % book.short(it) for it in cells
    ], 5)


def holders(book: Book, it: Sum) -> List[str]:
    """Which cells hold the asked one: those that p lines show, those without records, and bounds.
    """
    said = []
    if it.shown_by_line():
        said.append("Always shown, by a p line: %s." % by_lines(book, it.shown_by_line()))
    if it.empty():
        said.append("Without records, so always shown as 0: %s." %
                    listed(["[%s]" % book.short(k) for k in it.empty()], 5))
    if it.ends():
        said.append("%s." % listed([text for _, text in it.ends()], 4))
    return [" ".join(said)] if said else []


def remedy(book: Book, it: Sum) -> str:
    """What helps: p lines, b lines, or a coarser code."""
    said = []
    if it.shown_by_line():
        one = len(it.shown_by_line()) == 1
        said.append("Delete %s, if %s needn't be shown" %
                    ("that p line" if one else "one of these p lines",
                     "the figure" if one else "its figure"))
    if any("b" in book.cells[cell].said for cell, _ in it.ends()):
        said.append("a b line stays where an attacker does know that, and else goes or gets wider")
    coarse = coarser(book, it, not said)
    if coarse:
        said.append(coarse)
    text = "; or ".join(said)
    return text[:1].upper() + text[1:] + "; then run again." if text else ""


def coarser(book: Book, it: Sum, is_last: bool) -> str:
    """The codes that could be merged: those of a relation with several parts that have records,
    first of one that has the asked cell among them."""
    def filled(parts: List[int]) -> int:
        return sum(1 for part in parts if book.cells[part].freq)

    several = [(total, parts) for total, parts in it.used if filled(parts) > 1]
    of = next((one for one in several if it.question.cell in one[1]),
              several[0] if several else it.used[0] if it.used and is_last else None)
    if of is None:
        return "take coarser codes near the cell" if is_last else ""
    total, parts = of
    k = next((k for k in range(len(book.trees)) if book.names[parts[0]][k] != book.names[total][k]),
             0)
    above, name = shown(book.trees[k].codes[book.names[total][k]]), shown_name(
        book.variables[k].name)
    if filled(parts) < 2:
        return "leave out the codes of %s below %s, of which one alone has records here" % (name,
                                                                                            above)
    return "merge codes of %s below %s" % (name, above)


def row_line(book: Book, cell: int, down: int, up: int, table: int, separator: bytes) -> bytes:
    """A line of an a priori file that states the levels of a cell."""
    return separator.join(
        book.codes_in(cell, table) +
        [b"pl", digits(down, book.decimals).encode(),
         digits(up, book.decimals).encode()])


def smaller_levels(book: Book, question: Question, reach: Optional[Fraction]) -> List[str]:
    """The line that states levels as large as the cell can go to both sides, where that is allowed:
    upwards a unit at least."""
    it, room = book.cells[question.cell], Rooms(book, book.relations()).own(question.cell)
    if reach is None or reach < 0:
        return []
    down, up = min(it.down, room.down), it.up if room.up is None else min(it.up, room.up)
    down, up = (down, min(up, int(reach))) if question.side == "above" else (min(down, int(reach)),
                                                                             up)
    if up < 1:
        return []
    table = book.within[question.cell][0]
    line = row_line(book, question.cell, down, up, table, b",")
    return [
        "Or the office states smaller levels for it, and gives the rest up: %s in the a priori "
        "file of table %d%s." % (shown(line, 200)[1:-1], table + 1, ", in place of %s" %
                                 it.said["pl"].place() if "pl" in it.said else "")
    ]


def explain(book: Book, question: Question) -> List[str]:
    """What to say of `cannot protect cell C SIDE` and its multipliers."""
    if question.cell >= len(book.cells):
        return [
            "The tables have only %d cells now; have the files changed since argus read them?" %
            len(book.cells)
        ]
    it = Sum(book, book.relations(), question, set())
    reach = it.reach()
    lines = [levels_text(book, question.cell), reach_text(book, question, reach)]
    if reach is None:
        return lines
    if reach >= level_of(book, question):
        return lines + [
            "By the files as they are now that is far enough; have they changed since argus "
            "read them?"
        ]
    if set(it.terms) != {question.cell}:
        lines.append("It is %s." % it.text())
    return lines + holders(book, it) + [remedy(book, it)] + smaller_levels(book, question, reach)
