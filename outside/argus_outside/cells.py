"""The cells of all tables, what falls into them, and the sums between them (manual: How cells are
numbered)."""
from itertools import product
from typing import Dict, List, Optional, Sequence, Set, Tuple

from argus_outside.metadata import Bound, CutTree, Tree
from argus_outside.records import Pair, Records
from argus_outside.texts import Unreadable, printable

CELLS = 60000
Name = Tuple[int, ...]  # a code's place per variable of the job, 0 where a table doesn't span it


class Content:
    """What records make up: their weighted sum (truth, in units), how many they are, the largest,
    and one of them.
    """
    __slots__ = ("truth", "count", "largest", "row")

    def __init__(self,
                 pairs: Sequence[Pair] = (),
                 row: Optional[int] = None,
                 keep: int = 0) -> None:
        self.truth, self.count = sum(value * weight for value, weight in pairs), len(pairs)
        self.largest = sorted(pairs)[-keep:]  # (value, weight in steps), ascending
        self.row = row  # a record, from 0: the only one where the count is 1

    def add(self, other: "Content", keep: int) -> None:
        """Adds further records; of all of them the `keep` largest are kept."""
        self.truth += other.truth
        self.count += other.count
        self.row = other.row
        if len(self.largest) < keep or other.largest[-1] > self.largest[0]:
            self.largest = sorted(self.largest + other.largest)[-keep:]


class Cell(Content):
    """A cell: what its records make up, and what is known of it beforehand."""
    def __init__(self, name: Name, table: int) -> None:
        super().__init__()
        self.name, self.table = name, table  # the first table that has it, from 0
        self.kind = "Free"  # or Primary (sensitive) or Fixed (always shown)
        # Protection levels and the attacker's lower bound, in units.
        self.up = self.down = self.low = 0
        self.high: Optional[int] = None  # the attacker's upper bound
        self.price = 1

    def top(self, n: int, scale: int) -> int:
        """The sum of value times weight over the n * scale largest weight steps; a last record is
        taken in part.
        """
        left, total = n * scale, 0
        for value, weight in reversed(self.largest):
            taken = min(weight, left)
            total, left = total + value * taken, left - taken
        return total


class Book:
    """All cells, numbered in the order in which the tables first name them, and their relations
    (total = parts).
    """
    def __init__(self, trees: List[Tree], bound: Bound) -> None:
        self.trees, self.bound = trees, bound
        self.cuts = [[CutTree(trees[place], level) for place, level in zip(spans, levels)]
                     for spans, levels in zip(bound.tables, bound.depths)
                     ]  # per table, in the order of its variables
        self.cells: List[Cell] = []
        self.numbers: Dict[Name, int] = {}
        self.tables: List[List[int]] = []  # per table its cells in the order of its lines
        for number, spans in enumerate(bound.tables):
            self._add_table(number, spans)
        self.relations: List[Tuple[int, int, List[int]]] = []  # (total, variable, parts)
        self._relate()

    def _add_table(self, number: int, spans: Sequence[int]) -> None:
        """Names the cells of one table."""
        own, template, size = [], [0] * len(self.trees), 1
        for cut in self.cuts[number]:
            size *= len(cut.places)
        for places in product(*(cut.places for cut in self.cuts[number])) if size <= CELLS else ():
            for variable, place in zip(spans, places):
                template[variable] = place
            name = tuple(template)
            cell = self.numbers.setdefault(name, len(self.cells))
            if cell == len(self.cells):
                self.cells.append(Cell(name, number))
            own.append(cell)
        if size > CELLS or len(self.cells) > CELLS:
            raise Unreadable("table %d" % (number + 1), None, "TooManyCells",
                             "the tables have more than 60,000 cells")
        self.tables.append(own)

    def _relate(self) -> None:
        """A relation for each cell and variable where a table with the cell has codes of the
        variable right below the cell's.
        """
        summed: List[Set[int]] = [set() for _ in self.cells]
        for spans, cuts, own in zip(self.bound.tables, self.cuts, self.tables):
            for place in own:
                name = self.cells[place].name
                summed[place].update(variable for variable, cut in zip(spans, cuts)
                                     if cut.children(name[variable]))
        for number, cell in enumerate(self.cells):
            for variable in sorted(summed[number]):
                before, after = cell.name[:variable], cell.name[variable + 1:]
                parts = [
                    self.numbers[before + (child, ) + after]
                    for child in self.trees[variable].children[cell.name[variable]]
                ]
                self.relations.append((number, variable, parts))

    def tabulate(self, records: Records, keep: int) -> None:
        """Gives every record to each cell that it falls into, once: through the first table that
        has the cell.
        """
        for number, spans in enumerate(self.bound.tables):
            contents = self._leaves(records, number, keep)
            for at, cut in enumerate(self.cuts[number]):
                self._climb(contents, at, cut.tree.parents, keep)
            name = [0] * len(self.trees)
            for places, content in contents.items():
                for variable, place in zip(spans, places):
                    name[variable] = place
                cell = self.cells[self.numbers[tuple(name)]]
                if cell.table == number:
                    cell.add(content, keep)

    def _leaves(self, records: Records, number: int, keep: int) -> Dict[Name, Content]:
        """The records by the codes of a table under which theirs lie, as deep as the table goes."""
        spans = self.bound.tables[number]
        reached = [{code: cut.reached(place)
                    for code, place in cut.tree.places.items()} for cut in self.cuts[number]]
        pairs: Dict[Name, List[Pair]] = {}
        rows: Dict[Name, int] = {}
        for group in records.groups:
            places = tuple(
                [by_code[group.codes[variable]] for by_code, variable in zip(reached, spans)])
            pairs.setdefault(places, []).extend(group.pairs)
            rows[places] = group.row
        return {places: Content(found, rows[places], keep) for places, found in pairs.items()}

    @staticmethod
    def _climb(contents: Dict[Name, Content], at: int, parents: Sequence[int], keep: int) -> None:
        """Adds what lies below a code of one variable to the code, the deepest first: codes stand
        behind those above them.
        """
        by_place: Dict[int, List[Name]] = {}
        for places in contents:
            by_place.setdefault(places[at], []).append(places)
        for place in range(len(parents) - 1, 0, -1):
            above = parents[place]
            for places in by_place.get(place, ()):
                upper = places[:at] + (above, ) + places[at + 1:]
                if upper not in contents:
                    contents[upper] = Content()
                    by_place.setdefault(above, []).append(upper)
                contents[upper].add(contents[places], keep)

    def named(self, number: int) -> str:
        """A cell by its codes, in the order of the first table that has it, and that table."""
        cell = self.cells[number]
        codes = [
            self.trees[variable].codes[cell.name[variable]]
            for variable in self.bound.tables[cell.table]
        ]
        return "%s (table %d)" % (", ".join(map(printable, codes)), cell.table + 1)

    def named_relation(self, number: int) -> str:
        """A relation in words."""
        total, variable, _ = self.relations[number]
        return "the sum over %s to %s" % (printable(
            self.bound.spanning[variable].name), self.named(total))
