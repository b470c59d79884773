"""Which cells are sensitive and how far they must stay open; what the office knows beforehand
(manual: Rules and costs; A priori files). The rules and levels are those of the handbook on
statistical disclosure control."""
from typing import Dict, List, Optional, Tuple

from argus_outside.cells import Book, Cell
from argus_outside.job import Job, Prior
from argus_outside.texts import BLANKS, Unreadable, lines, read_file, units, whole_in

MOST = 10**29  # levels and bounds, in units
PRICE = 1 << 40


def up(numerator: int, denominator: int) -> int:
    """A quotient rounded up to a whole number."""
    return -(-numerator // denominator)


def keep(job: Job) -> int:
    """How many of the largest contributors the rules look at."""
    return max([2] + [numbers[0] for word, numbers in job.rules if word == "NK"])


def level(job: Job, cell: Cell, scale: int) -> Optional[int]:
    """The greatest upper level, in units and at least 1, of the rules that name the cell; None
    where none does.
    """
    if cell.count == 0:
        return None
    found, truth = [], cell.truth
    first = cell.top(1, scale)
    rest = truth - cell.top(2, scale)  # X - x1 - x2
    for word, numbers in job.rules:
        if word == "FREQ" and cell.count < numbers[0]:
            found.append(up(numbers[1] * truth, 100))
        elif word == "NK":
            largest = cell.top(numbers[0], scale)
            if 100 * largest > numbers[1] * truth:
                found.append(up(100 * largest, numbers[1]) - truth)
        elif word in ("P", "PQ"):
            q = numbers[1] if word == "PQ" else 100
            if q * rest < numbers[0] * first:
                found.append(up(numbers[0] * first, q) - rest)
        elif word == "ZERO" and truth == 0:
            found.append(numbers[0])
    return max(found + [1]) if found else None


class Statements:
    """What a priori lines say of cells: numbers by (cell, keyword), and the place of each cell's
    first `p` line.
    """
    def __init__(self) -> None:
        self.said: Dict[Tuple[int, bytes], Tuple[int, ...]] = {}
        self.shown: Dict[int, Tuple[int, int]] = {}


FIELDS = {b"u": 0, b"s": 0, b"p": 0, b"c": 1, b"pl": 2, b"b": 2}


def _numbers(keyword: bytes, fields: List[bytes], decimals: int) -> Optional[Tuple[int, ...]]:
    """A statement's numbers, levels and bounds in units; None where one is no number or out of
    range.
    """
    if keyword == b"c":
        price = whole_in(fields[0], 1, PRICE)
        return None if price is None else (price, )
    said = [units(field, decimals) for field in fields]
    numbers = [number for number in said if number is not None and number <= MOST]
    if len(numbers) != len(said) or keyword == b"pl" and numbers[1] < 1:
        return None
    return tuple(numbers)


def read_prior(book: Book, prior: Prior, statements: Statements) -> None:
    """One a priori file, or its first fault."""
    where = "apriori table %d" % prior.table
    spans = book.bound.tables[prior.table - 1]
    for number, line in enumerate(lines(read_file(prior.file, where)), 1):
        if not line.strip(BLANKS):
            continue
        fields = [field.strip(BLANKS) for field in line.split(prior.separator)]
        keyword = fields[len(spans)].lower() if len(fields) > len(spans) else b""
        if keyword not in FIELDS or len(fields) != len(spans) + 1 + FIELDS[keyword]:
            raise Unreadable(where, number, "BadShape",
                             "the line has another number of fields, or no such keyword")
        name = [0] * len(book.trees)
        for variable, cut, code in zip(spans, book.cuts[prior.table - 1], fields):
            place = cut.tree.places.get(code)
            if place is None or not cut.has(place):
                raise Unreadable(where, number, "UnknownCode",
                                 "the table has no such code of the variable")
            name[variable] = place
        numbers = _numbers(keyword, fields[len(spans) + 1:], book.bound.decimals)
        if numbers is None:
            raise Unreadable(where, number, "BadNumber",
                             "a number isn't one, has too many decimals, or is out of range")
        _state(book, book.numbers[tuple(name)], keyword, numbers, (prior.table, number), statements)


def _state(book: Book, cell: int, keyword: bytes, numbers: Tuple[int, ...], place: Tuple[int, int],
           all_: Statements) -> None:
    """One statement on one cell, or its fault; an exact repetition is none."""
    where, line = "apriori table %d" % place[0], place[1]
    if keyword == b"u" and book.cells[cell].count == 0:
        raise Unreadable(where, line, "EmptyUnsafe", "a cell without records is declared unsafe")
    if keyword == b"b" and not numbers[0] <= book.cells[cell].truth <= numbers[1]:
        raise Unreadable(where, line, "OutsideTruth", "the cell's value lies outside the bounds")
    opposite = {b"u": b"s", b"s": b"u"}.get(keyword)
    if all_.said.get((cell, keyword), numbers) != numbers or (cell, opposite) in all_.said:
        raise Unreadable(where, line, "Twice", "an earlier line says otherwise of the cell")
    all_.said[cell, keyword] = numbers
    if keyword == b"p":
        all_.shown.setdefault(cell, place)


def settle(book: Book, job: Job, statements: Statements) -> None:
    """Gives every cell its kind, levels, bounds and price, or the first `p` line of a sensitive
    cell as a fault.
    """
    scale = 10**book.bound.weight.decimals if book.bound.weight else 1
    for number, cell in enumerate(book.cells):
        said = {
            keyword: statements.said[number, keyword]
            for keyword in FIELDS if (number, keyword) in statements.said
        }
        rule = level(job, cell, scale)
        if b"u" in said or rule is not None and b"s" not in said:
            manual = max(1, up(job.manual * cell.truth, 100)) if b"u" in said else 1
            cell.kind, cell.up = "Primary", max(rule or 1, manual)
            cell.down = min(cell.up, cell.truth)
            if b"pl" in said:
                cell.down, cell.up = min(said[b"pl"][0], cell.truth), said[b"pl"][1]
        elif b"p" in said or cell.count == 0:
            cell.kind = "Fixed"
        if b"b" in said:
            cell.low, cell.high = said[b"b"]
        cost = {
            b"VALUE": 1 + min(cell.truth, PRICE - 1),
            b"FREQ": 1 + cell.count,
            b"UNIT": 1
        }[job.cost]
        cell.price = said[b"c"][0] if b"c" in said else cost
    bad = [place for cell, place in statements.shown.items() if book.cells[cell].kind == "Primary"]
    if bad:
        table, line = min(bad)
        raise Unreadable("apriori table %d" % table, line, "ProtectedPrimary",
                         "a sensitive cell is to be shown")
