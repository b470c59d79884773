"""The released tables, and the book of their cells, numbered as argus numbers them."""

import csv
import math
import re
from typing import Dict, Iterable, List, Optional, Sequence, Set, Tuple

from argus_office.paging.files import Metadata, Stop, text_in
from argus_office.reading.tables import rows_of

# What stands in a table for a cell.
VALUE = re.compile(r"x|[0-9]+(\.[0-9]+)?")
# The codes of a cell, one for each variable of the book.
Name = Tuple[str, ...]


class Table:
    """A released table as its file has it: the codes of each variable in order, and a text for each
    place. Of some variables it may show the codes down to a level alone.

    Raises Stop where the file isn't a whole table of the job.
    """

    def __init__(
        self, number: int, name: str, variables: List[str], response: str,
        levels: Optional[Dict[str, int]] = None,
    ) -> None:
        self.number, self.name, self.levels = number, name, levels or {}
        try:
            rows = rows_of(text_in(name))
        except csv.Error as fault:
            raise Stop("table %d (%s): %s" % (number, name, fault)) from fault
        wide = len(variables) + 1
        is_wide = len(rows) > 1 and all(len(row) == wide for row in rows)
        if not is_wide or not all(VALUE.fullmatch(row[-1]) for row in rows[1:]):
            raise Stop("table %d (%s) isn't as argus writes it" % (number, name))
        if rows[0] != [*variables, response]:
            raise Stop("table %d (%s) isn't that of the job" % (number, name))
        self.variables, self.response = rows[0][:-1], rows[0][-1]
        self.codes = [list(dict.fromkeys(row[k] for row in rows[1:])) for k in range(wide - 1)]
        self.shown = {tuple(row[:-1]): row[-1] for row in rows[1:]}
        count = math.prod(map(len, self.codes))
        if count != len(rows) - 1 or count != len(self.shown):
            raise Stop("table %d (%s) isn't whole" % (number, name))

    def spans(self) -> List[str]:
        """The names of the variables, with the last level where the job says one."""
        return [
            "%s (to level %d)" % (it, self.levels[it]) if it in self.levels else it
            for it in self.variables]


class Book:
    """The cells of all tables, numbered as argus numbers them."""

    def __init__(self, tables: List[Table], metadata: Metadata) -> None:
        self.tables = tables
        self.codes: Dict[str, List[str]] = {}
        self.parents: Dict[str, Dict[str, Optional[str]]] = {}
        self.inners: Dict[Tuple[str, int], Set[Optional[str]]] = {}
        self.depths: Dict[Tuple[str, str], int] = {}
        self.found: Dict[Tuple[int, int], Dict[str, int]] = {}
        self.kept: Dict[int, List[Tuple[Optional[int], str]]] = {}
        for table in tables:
            self.take_codes(table)
        order = [it for it in metadata.variables if it in self.codes]
        self.variables = order + [it for it in self.codes if it not in order]
        for variable in self.variables:
            self.parents[variable] = metadata.parents(variable, self.codes[variable])
        for table in tables:
            self.check_codes(table)
        self.names: List[Name] = []
        self.number: Dict[Name, int] = {}
        self.within: List[List[int]] = []
        self.text: List[str] = []
        for table in tables:
            self.add(table)
        said = [code for variable in self.variables for code in self.codes[variable][1:]]
        self.is_ambiguous = len(said) != len(set(said))

    def take_codes(self, table: Table) -> None:
        """The table that goes deepest has all codes that the others have."""
        for variable, codes in zip(table.variables, table.codes):
            if len(codes) > len(self.codes.setdefault(variable, codes)):
                self.codes[variable] = codes

    def check_codes(self, table: Table) -> None:
        """A table has the codes that its deepest fellow has, down to its own level."""
        for variable, codes in zip(table.variables, table.codes):
            level = table.levels.get(variable)
            whole = self.codes[variable]
            if level is not None:
                whole = [it for it in whole if self.depth(variable, it) <= level]
            if codes != whole:
                raise Stop("the tables have other codes of %s" % variable)

    def add(self, table: Table) -> None:
        """Numbers the cells of a table that none before it has."""
        places = self.places(table)
        for place, text in table.shown.items():
            name = self.name(places, place)
            if name not in self.number:
                self.number[name] = len(self.names)
                self.names.append(name)
                self.within.append([])
                self.text.append(text)
            cell = self.number[name]
            self.within[cell].append(table.number)
            if self.text[cell] != text:
                raise Stop("two tables show cell %d otherwise" % cell)

    def places(self, table: Table) -> List[Tuple[Optional[int], str]]:
        """For each variable of the book its place in a table, or None and its total."""
        there = {variable: k for k, variable in enumerate(table.variables)}
        return [(there.get(it), self.codes[it][0]) for it in self.variables]

    def name(self, places: List[Tuple[Optional[int], str]], place: Sequence[str]) -> Name:
        """The codes of the cell that stands at a place of a table."""
        return tuple([total if k is None else place[k] for k, total in places])

    def at(self, table: Table, place: Sequence[str]) -> int:
        """The number of the cell that stands at a place of a table."""
        if table.number not in self.kept:
            self.kept[table.number] = self.places(table)
        return self.number[self.name(self.kept[table.number], place)]

    def depth(self, variable: str, code: str) -> int:
        """How far a code stands below the total of its variable."""
        key = variable, code
        if key not in self.depths:
            above = self.parents[variable][code]
            self.depths[key] = 0 if above is None else 1 + self.depth(variable, above)
        return self.depths[key]

    def place(self, table: Table, k: int, code: str) -> int:
        """The place of a code among those of a table's variable."""
        key = table.number, k
        if key not in self.found:
            self.found[key] = {it: place for place, it in enumerate(table.codes[k])}
        return self.found[key][code]

    def is_lowest(self, cell: int, table: Table) -> bool:
        """Whether the cell has codes of the table's lowest level for each of its variables."""
        name = dict(zip(self.variables, self.names[cell]))
        return all(name[it] not in self.inner(it, table) for it in table.variables)

    def inner(self, variable: str, table: Optional[Table] = None) -> Set[Optional[str]]:
        """The codes of a variable that have others below them, in a table or in all of them."""
        key = variable, table.number if table else 0
        if key not in self.inners:
            codes = self.codes[variable]
            if table:
                codes = table.codes[table.variables.index(variable)]
            self.inners[key] = {self.parents[variable][it] for it in codes}
        return self.inners[key]

    def parent_of(self, variable: str, cells: Iterable[int]) -> Optional[str]:
        """The code below which some cells lie beside each other: the parent of two codes, or that
        of them which is the other's parent."""
        k = self.variables.index(variable)
        found = sorted({self.names[it][k] for it in cells})
        above = {self.parents[variable][it] for it in found}
        inside = [it for it in found if it in above]
        left = inside or sorted(it for it in above if it is not None)
        return left[0] if len(left) == 1 and len(found) == 2 else None

    def called(self, cell: int, is_full: bool = False) -> str:
        """A cell in words: its codes but for the totals; with the names of their variables where
        codes alone could be mixed up."""
        named = zip(self.variables, self.names[cell])
        pairs = [(it, code) for it, code in named if code != self.codes[it][0]]
        if not pairs:
            return "the total"
        is_full = is_full or self.is_ambiguous
        return " · ".join(
            "%s %s" % pair if is_full else pair[1] or "(empty code)" for pair in pairs)
