"""The plan: which cubes are hidden beside the sensitive cells, by trying all cubes (manual: What is
hidden, and in which order)."""
from itertools import product
from typing import Dict, Iterator, List, Optional, Set, Tuple

from argus_outside.cells import Book
from argus_outside.certificate import Step

Best = Tuple[int, List[int]]


class Subtable:
    """A table cut down to one code per variable that has codes below it in the table, the parents,
    and these codes.
    """
    def __init__(self, book: Book, table: int, parents: Tuple[int, ...]) -> None:
        self.book, self.table, self.parents = book, table, parents
        self.spans = book.bound.tables[table]
        self.codes = [[parent] + cut.children(parent)
                      for cut, parent in zip(book.cuts[table], parents)]
        self.numbers: Dict[Tuple[int, ...], int] = {}
        for places in product(*self.codes):
            self.numbers[places] = self._number(places)

    def _number(self, places: Tuple[int, ...]) -> int:
        name = [0] * len(self.book.trees)
        for variable, place in zip(self.spans, places):
            name[variable] = place
        return self.book.numbers[tuple(name)]

    def least_cube(self, places: Tuple[int, ...], up: int, down: int,
                   hidden: Set[int]) -> Optional[List[int]]:
        """The corners, ascending, of the least cube of the cell that serves the levels: by the
        price of the corners that
        aren't hidden yet, then by the list. A cube is left off as soon as a corner doesn't serve or
        it costs too much."""
        best: List[Best] = []

        def serves(number: int, plus: bool) -> bool:
            cell = self.book.cells[number]
            rise, fall = (up, down) if plus else (down, up)
            return (cell.kind != "Fixed" and cell.truth - fall >= cell.low
                    and (cell.high is None or cell.truth + rise <= cell.high))

        def extend(corners: List[Tuple[Tuple[int, ...], bool]], price: int, dimension: int) -> None:
            if dimension == len(places):
                found = (price, sorted(self.numbers[at] for at, _ in corners))
                if not best or found < best[0]:
                    best[:] = [found]
                return
            own, parent = places[dimension], self.parents[dimension]
            for other in self.codes[dimension]:
                if other == own:
                    continue
                # A child's partner is another child: opposite sign.
                flip = own != parent and other != parent
                further, cost = [], price
                for at, plus in corners:
                    at = at[:dimension] + (other, ) + at[dimension + 1:]
                    number, plus = self.numbers[at], plus != flip
                    cost += 0 if number in hidden else self.book.cells[number].price
                    if best and cost > best[0][0] or not serves(number, plus):
                        break
                    further.append((at, plus))
                else:
                    extend(corners + further, cost, dimension + 1)

        if serves(self.numbers[places], True):
            extend([(places, True)], 0, 0)
        return best[0][1] if best else None


def _subtables(book: Book) -> Iterator[Subtable]:
    """All subtables: by the summed depth of their parents, then by table, then by the parents'
    places.
    """
    found: List[Tuple[int, int, Tuple[int, ...]]] = []
    for table, spans in enumerate(book.bound.tables):
        inner = [[place for place in cut.places if cut.children(place)] for cut in book.cuts[table]]
        for parents in product(*inner):
            depth = sum(book.trees[variable].depths[parent]
                        for variable, parent in zip(spans, parents))
            found.append((depth, table, parents))
    for _, table, parents in sorted(found):
        yield Subtable(book, table, parents)


def plan(book: Book, passes: int) -> List[Step]:
    """The steps that hide a new cell.

    In a subtable each cell that was hidden on entry takes one step, ascending.
    """
    hidden = {number for number, cell in enumerate(book.cells) if cell.kind == "Primary"}
    steps: List[Step] = []
    for _ in range(passes):
        for subtable in _subtables(book):
            entry = sorted(
                (number, places) for places, number in subtable.numbers.items() if number in hidden)
            for number, places in entry:
                cell = book.cells[number]
                up, down = (cell.up, cell.down) if cell.kind == "Primary" else (1,
                                                                                min(1, cell.truth))
                corners = subtable.least_cube(places, up, down, hidden)
                if corners is not None and not hidden.issuperset(corners):
                    steps.append(Step(subtable.table, subtable.parents, number, tuple(corners)))
                    hidden.update(corners)
    return steps
