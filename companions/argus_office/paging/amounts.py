"""Amounts in units, and the listings of the cells and of the relations between them."""

import csv
import io
from fractions import Fraction
from typing import List, NamedTuple, Optional, Tuple, Union

from argus_office.paging.files import Stop
from argus_office.paging.tables import Book
from argus_office.paging.texts import grouped
from argus_office.reading.tables import Listing, rows_of

# A relation: the cell of a total, and the cells whose sum it is.
Relation = Tuple[int, List[int]]
Number = Union[int, Fraction]


class Amounts:
    """Numbers of units and their texts. A unit is the last decimal that the tables' values have."""

    def __init__(self, decimals: int) -> None:
        self.decimals = decimals

    def units(self, text: str) -> int:
        """The units of a value's text."""
        if not self.decimals and "." not in text:
            return int(text)
        whole, _, part = text.partition(".")
        return int(whole + part.ljust(self.decimals, "0"))

    def show(self, units: Number, is_signed: bool = False) -> str:
        """The text of an amount; with three more decimals at most where it is no whole number of
        units, and a sign for about where they aren't enough."""
        sign = "\u2212" if units < 0 else "+" if is_signed and units > 0 else ""
        places, about = self.decimals, ""
        if isinstance(units, int):
            size = abs(units)
        else:
            size, places, about = self.finer(abs(units))
        if not places:
            return about + sign + grouped(size)
        whole, part = divmod(size, 10**places)
        return "%s%s%s.%0*d" % (about, sign, grouped(whole), places, part)

    def finer(self, size: Fraction) -> Tuple[int, int, str]:
        """A fraction of units as a whole number of finer ones, their decimals, and whether that is
        about right alone."""
        places = self.decimals
        while size.denominator != 1 and places < self.decimals + 3:
            size, places = size * 10, places + 1
        return round(size), places, "" if size.denominator == 1 else "\u2248\u202f"


class Fact(NamedTuple):
    """A line of the listing of the cells, in units; a high that is open is None."""

    records: int
    status: str
    rules: List[str]
    value: int
    largest: int
    second: int
    up: int
    down: int
    low: int
    high: Optional[int]


AMOUNTS = ("value", "largest", "second", "up", "down", "low")


def listing_of(text: str, book: Book, amounts: Amounts) -> List[Fact]:
    """The facts of all cells from their listing. Raises Stop where it is that of other tables."""
    wrong = "the listing of the cells isn't that of the tables: "
    try:
        listing = Listing(rows_of(text))
        columns = [listing.at[it] for it in ("records", "status", "rules", *AMOUNTS, "high")]
        names = [2 + listing.variables.index(it) for it in book.variables]
    except (ValueError, KeyError) as fault:
        raise Stop(wrong + "line 1") from fault
    facts: List[Fact] = []
    for cell, row in enumerate(listing.rows):
        is_wide = cell < len(book.names) and len(row) == len(listing.head)
        is_there = is_wide and row[0] == str(cell)
        if not is_there or tuple([row[it] for it in names]) != book.names[cell]:
            raise Stop(wrong + "line %d" % (cell + 2))
        facts.append(fact_of([row[it] for it in columns], amounts))
    if len(facts) != len(book.names):
        raise Stop(wrong + "it has %d cells" % len(facts))
    return facts


def fact_of(row: List[str], amounts: Amounts) -> Fact:
    """The facts of a line's columns, in the order of the names of a fact."""
    value, largest, second, up, down, low = map(amounts.units, row[3:9])
    high = amounts.units(row[9]) if row[9] else None
    return Fact(int(row[0]), row[1], row[2].split(), value, largest, second, up, down, low, high)


def relations_of(text: str, book: Book) -> List[Relation]:
    """The relations by their numbers, from their listing. Each is looked at: its cells differ in
    the code of its variable alone. Raises Stop where it is that of other tables."""
    found: List[Relation] = []
    try:
        for row in csv.DictReader(io.StringIO(text, newline="")):
            total, parts = int(row["total"]), [int(it) for it in row["parts"].split()]
            place = book.variables.index(row["variable"])
            name = book.names[total]
            before, behind = name[:place], name[place + 1:]
            if row["relation"] != str(len(found)) or total in parts:
                raise ValueError
            for part in parts:
                other = book.names[part]
                if other[:place] != before or other[place + 1:] != behind:
                    raise ValueError
            found.append((total, parts))
    except (KeyError, IndexError, TypeError, ValueError, AttributeError) as fault:
        wrong = "the listing of the relations isn't that of the tables: line %d"
        raise Stop(wrong % (len(found) + 2)) from fault
    return found
