"""The cells of a job: numbered, added up and judged by the rules and the a priori files, as the
manual says it.

Amounts are whole numbers of units; a unit is the last decimal of the response, and with weights
that of the weight beside it. This is written anew from the manual (How cells are numbered, Rules in
a job, Lines of an a priori file), and is only for what `explain` says.
"""

import heapq
import itertools
from fractions import Fraction
from typing import Dict, Iterator, List, NamedTuple, Optional, Sequence, Set, Tuple

from argus_office.reading.files import BLANKS, Unread, listed, shown, shown_name
from argus_office.reading.job import Job
from argus_office.reading.priors import Statement, statements_of
from argus_office.reading.records import Microdata, Record, Units, units_of
from argus_office.reading.trees import tree_of

Name = Tuple[int, ...]
Relation = Tuple[int, List[int]]


class Row(NamedTuple):
    """A record that counts: its record, its places in the trees, its value in units of the
    response, and its weight in steps."""

    record: Record
    places: Name
    value: int
    weight: int

    def amount(self) -> int:
        """What the record adds to its cells."""
        return self.value * self.weight


class Cell:
    """What is known of a cell."""
    def __init__(self) -> None:
        self.truth = self.freq = self.row = 0
        self.tops: List[Tuple[int, int]] = []
        self.status = "free"
        self.rules: List[str] = []
        self.up = self.down = self.low = 0
        self.high: Optional[int] = None
        self.said: Dict[str, Statement] = {}

    def is_hidable(self) -> bool:
        """Whether the cell may be hidden."""
        return self.status != "fixed"

    def top(self, units: int) -> int:
        """The sum of the largest contributions up to so many steps of weight."""
        total = 0
        for value, weight in self.tops:
            taken = min(weight, units)
            total, units = total + value * taken, units - taken
        return total


class Book:
    """The cells of all tables with what the job says of them."""
    def __init__(self, job: Job):
        self.job, self.data = job, Microdata(job)
        self.metadata, self.variables = self.data.metadata, self.data.names.spanning
        response, weight = self.data.names.response, self.data.names.weight
        if response is None or not self.variables:
            raise Unread(job.name,
                         "its tables name no response or no variables that the metadata have")
        self.response, self.weight = response, weight
        self.decimals = response.decimals() + (weight.decimals() if weight else 0)
        self.scale = 10**weight.decimals() if weight else 1
        records = list(self.data.rows())
        fields = [{record.raw[it.cut()] for record in records} for it in self.variables]
        codes = [{it.strip(BLANKS) for it in found} for found in fields]
        self.trees = [
            tree_of(it, found - {it.total()}) for it, found in zip(self.variables, codes)
        ]
        self.below = [it.children() for it in self.trees]
        at = {it.name: k for k, it in enumerate(self.variables)}
        self.tables = [[at[name] for name in table.variables if name in at]
                       for _, table in job.tables()]
        self.levels = [[job.level(t, self.variables[k].name) for k in spans]
                       for t, spans in enumerate(self.tables, 1)]
        self.rows = self.read_rows(records, fields)
        self.number_cells()
        self.tabulate()
        self.statements = self.read_priors()
        self.judge()

    # Cells, in the order of their numbers.

    def number_cells(self) -> None:
        """Numbers the cells: tables in the order of the job, places in lexicographic order, shared
        cells once."""
        self.names: List[Name] = []
        self.number: Dict[Name, int] = {}
        self.within: List[List[int]] = []
        for t, spans in enumerate(self.tables):
            for places in itertools.product(*self.places(t)):
                name = self.name_at(spans, places)
                if name not in self.number:
                    self.number[name] = len(self.names)
                    self.names.append(name)
                    self.within.append([])
                self.within[self.number[name]].append(t)
                if len(self.names) > 60000:
                    raise Unread(self.job.name, "its tables have more than 60,000 cells")
        self.cells = [Cell() for _ in self.names]

    def places(self, table: int) -> List[List[int]]:
        """For each variable of a table the places of the codes that the table shows."""
        return [
            self.trees[k].within(level) for k, level in zip(self.tables[table], self.levels[table])
        ]

    def above(self, table: int, places: Sequence[int]) -> Iterator[Tuple[int, ...]]:
        """The codes of a table that lie at or above some, one for each of its variables."""
        return itertools.product(*[
            self.trees[k].up(place, level)
            for k, level, place in zip(self.tables[table], self.levels[table], places)
        ])

    def name_at(self, spans: Sequence[int], places: Sequence[int]) -> Name:
        """The name of the cell at some places of a table's variables."""
        name = [0] * len(self.trees)
        for k, place in zip(spans, places):
            name[k] = place
        return tuple(name)

    def read_rows(self, records: List[Record], fields: List[Set[bytes]]) -> List[Row]:
        """What the records add to the tables, but for those of which a field can't be read. FIELDS
        are those of each variable; each is looked up once."""
        cuts = [it.cut() for it in self.variables]
        at = [{it: tree.at.get(it.strip(BLANKS)) for it in found}
              for tree, found in zip(self.trees, fields)]
        values = Units(self.response)
        weights = Units(self.weight) if self.weight else None
        rows = []
        for record in records:
            found = [place[record.raw[cut]] for place, cut in zip(at, cuts)]
            places = tuple(it for it in found if it is not None)
            value = values.of(record.raw)
            weight = weights.of(record.raw) if weights else 1
            if value is not None and weight is not None and len(places) == len(found):
                rows.append(Row(record, places, value, weight))
        return rows

    def tabulate(self) -> None:
        """Adds the records up: first those of the same lowest codes of a table, then each such
        group in all cells above it."""
        keep = max([2] + [it.numbers[0] for it in self.job.rules() if it.word == "NK"])
        for t, spans in enumerate(self.tables):
            for lowest, rows in self.groups(t).items():
                total = sum(it.amount() for _, it in rows)
                tops = heapq.nlargest(keep, [(it.value, it.weight) for _, it in rows])
                for places in self.above(t, lowest):
                    cell = self.number[self.name_at(spans, places)]
                    if self.within[cell][0] == t:
                        it = self.cells[cell]
                        it.truth, it.freq = it.truth + total, it.freq + len(rows)
                        it.row = rows[0][0] if it.freq == 1 else 0
                        it.tops = sorted(it.tops + tops, reverse=True)[:keep]

    def groups(self, table: int) -> Dict[Name, List[Tuple[int, Row]]]:
        """The rows, each with its number from 1, by the lowest codes that a table shows of them."""
        cuts = [
            (k, [tree.up(place, level)[0] for place in range(len(tree.codes))])
            for k, level in zip(self.tables[table], self.levels[table])
            for tree in [self.trees[k]]
        ]
        found: Dict[Name, List[Tuple[int, Row]]] = {}
        for number, row in enumerate(self.rows, 1):
            name = tuple([lowest[row.places[k]] for k, lowest in cuts])
            found.setdefault(name, []).append((number, row))
        return found

    def cells_of(self, row: int) -> List[int]:
        """The cells in which a row falls (rows count from 1)."""
        places = self.rows[row - 1].places
        found = {
            self.number[self.name_at(spans, at)]
            for t, spans in enumerate(self.tables)
            for at in self.above(t, [places[s] for s in spans])
        }
        return sorted(found)

    # Rules and a priori files.

    def read_priors(self) -> List[Statement]:
        """The lines of all a priori files, by table. A file that can't be read has none."""
        found: List[Statement] = []
        for _, it in sorted(self.job.priors(), key=lambda one: one[1].table):
            if not 1 <= it.table <= len(self.tables):
                continue
            try:
                found += statements_of(it.file, it.table, it.separator,
                                       len(self.tables[it.table - 1]))
            except Unread:
                continue
        return found

    def separator(self, statement: Statement) -> bytes:
        """What stands between the fields of a line's file."""
        return next((it.separator for _, it in self.job.priors() if it.table == statement.table),
                    b",")

    def cell_of(self, statement: Statement) -> Optional[int]:
        """The cell of which a line speaks; nothing where its table shows none."""
        spans, levels = self.tables[statement.table - 1], self.levels[statement.table - 1]
        if not all(self.trees[k].has(code, level)
                   for k, level, code in zip(spans, levels, statement.codes)):
            return None
        return self.number[self.name_at(
            spans, [self.trees[k].at[code] for k, code in zip(spans, statement.codes)])]

    def judge(self) -> None:
        """Makes each cell primary, fixed or free, with its levels and bounds."""
        for statement in self.statements:
            cell = self.cell_of(statement)
            if cell is not None:
                self.cells[cell].said.setdefault(statement.keyword, statement)
        man = next((it.numbers[0] for it in self.job.rules() if it.word == "MAN"), 20)
        for it in self.cells:
            self.judge_cell(it, man)

    def judge_cell(self, cell: Cell, man: int) -> None:
        """Takes what the rules and the lines of the a priori files say of a cell."""
        ups = self.levels_by_rules(cell)
        cell.rules = [word for word, _ in ups]
        if "b" in cell.said and len(cell.said["b"].fields) == 2:
            low, high = (units_of(it, self.decimals) for it in cell.said["b"].fields)
            cell.low, cell.high = low or 0, high
        if (ups and "s" not in cell.said) or ("u" in cell.said and cell.freq):
            cell.status = "primary"
            wanted = [level for _, level in ups]
            wanted += [Fraction(man * cell.truth, 100)] if "u" in cell.said else []
            cell.up = max(1, max(-(-it.numerator // it.denominator) for it in wanted))
            cell.down = min(cell.up, cell.truth)
            self.stated_levels(cell)
        elif not cell.freq or "p" in cell.said:
            cell.status = "fixed"

    def stated_levels(self, cell: Cell) -> None:
        """Takes the levels of a cell's `pl` line."""
        if "pl" in cell.said and len(cell.said["pl"].fields) == 2:
            down, up = (units_of(it, self.decimals) for it in cell.said["pl"].fields)
            if down is not None and up:
                cell.down, cell.up = min(down, cell.truth), up

    def levels_by_rules(self, cell: Cell) -> List[Tuple[str, Fraction]]:
        """The rules that name a cell, each with the upper level that it wants."""
        if not cell.freq:
            return []
        x, first = cell.truth, cell.top(self.scale)
        rest = x - cell.top(2 * self.scale)
        found = []
        for rule in self.job.rules():
            word, numbers = rule.word, rule.numbers
            if word == "FREQ" and cell.freq < numbers[0]:
                found.append((word, Fraction(numbers[1] * x, 100)))
            elif word == "NK" and 100 * cell.top(numbers[0] * self.scale) > numbers[1] * x:
                found.append(
                    (word, Fraction(100 * cell.top(numbers[0] * self.scale), numbers[1]) - x))
            elif word in ("P", "PQ"):
                p, q = numbers[0], numbers[1] if word == "PQ" else 100
                if q * rest < p * first:
                    found.append((word, Fraction(p * first, q) - rest))
            elif word == "ZERO" and x == 0:
                found.append((word, Fraction(numbers[0])))
        return found

    # Relations, and words for cells.

    def relations(self) -> List[Relation]:
        """Each relation, in order: a cell and its parts, by cell and then by variable."""
        found: List[Relation] = []
        for cell, name in enumerate(self.names):
            spanned: Set[int] = set()
            for t in self.within[cell]:
                spanned.update(k for k, level in zip(self.tables[t], self.levels[t])
                               if self.trees[k].depths[name[k]] < level)
            for k in range(len(self.trees)):
                if k in spanned and self.below[k][name[k]]:
                    found.append((cell, [
                        self.number[name[:k] + (it, ) + name[k + 1:]]
                        for it in self.below[k][name[k]]
                    ]))
        return found

    def called(self, cell: int) -> str:
        """A cell by its codes, those that aren't totals with their variables."""
        said = [
            "%s %s" % (shown_name(v.name), shown(tree.codes[place])[1:-1] or "(empty)")
            for v, tree, place in zip(self.variables, self.trees, self.names[cell]) if place
        ]
        return " · ".join(said) if said else "the total"

    def short(self, cell: int) -> str:
        """A cell by its codes alone."""
        said = [
            shown(tree.codes[place])[1:-1] or "(empty)"
            for tree, place in zip(self.trees, self.names[cell]) if place
        ]
        return " · ".join(said) if said else "the total"

    def codes_in(self, cell: int, table: int) -> List[bytes]:
        """The codes of a cell in the order of a table's variables, as an a priori file has them."""
        return [self.trees[k].codes[self.names[cell][k]] for k in self.tables[table]]

    def show(self, units: Fraction) -> str:
        """An amount as in a released table; a part of a unit as a fraction behind it."""
        whole, part = divmod(units, 1)
        text = digits(int(whole), self.decimals)
        return text if not part else "%s and %d/%d of a unit" % (text, part.numerator,
                                                                 part.denominator)

    def tables_text(self, cell: int) -> str:
        """The tables of a cell in words."""
        return "table %s" % listed([str(it + 1) for it in self.within[cell]])


def digits(units: int, decimals: int) -> str:
    """An amount of units as a released table has it."""
    sign, units = ("-", -units) if units < 0 else ("", units)
    if not decimals:
        return "%s%d" % (sign, units)
    return "%s%d.%0*d" % (sign, units // 10**decimals, decimals, units % 10**decimals)
