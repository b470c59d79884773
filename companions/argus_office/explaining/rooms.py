"""How far cells can go at most by plain sums: what every complete table keeps to, for the tables'
readers and for each firm that stands alone.

A cell that is always shown, or that a firm knows, has its true value. Sums then give each cell a
least and a greatest value. They may not be the narrowest, but no complete table goes past them: a
level beyond them can't be reached.
"""

from typing import Dict, Iterable, List, NamedTuple, Optional, Set, Tuple

from argus_office.reading.book import Book, Relation

# So many parts of relations are looked at in all, some seconds of work.
MOST_WORK = 1500000


class Room(NamedTuple):
    """How far a cell can go at most, in units: downwards, and upwards (None: open)."""

    down: int
    up: Optional[int]


class Ends:
    """Least and greatest values of the cells over those of another, and which cells differ from
    these."""
    def __init__(self, rooms: "Rooms"):
        self.rooms = rooms
        self.low: Dict[int, int] = {}
        self.high: Dict[int, Optional[int]] = {}

    def least(self, cell: int) -> int:
        """The least value of a cell."""
        return self.low[cell] if cell in self.low else self.rooms.low[cell]

    def greatest(self, cell: int) -> Optional[int]:
        """The greatest value of a cell; None where it is open."""
        return self.high[cell] if cell in self.high else self.rooms.high[cell]

    def raise_low(self, cell: int, to: int) -> bool:
        """Raises the least value of a cell, and says whether that moved it."""
        if to <= self.least(cell):
            return False
        self.low[cell] = to
        return True

    def lower_high(self, cell: int, to: int) -> bool:
        """Lowers the greatest value of a cell, and says whether that moved it."""
        now = self.greatest(cell)
        if now is not None and to >= now:
            return False
        self.high[cell] = to
        return True


class Rooms:
    """The rooms of all cells."""
    def __init__(self, book: Book, relations: List[Relation]):
        self.book, self.relations, self.work = book, relations, 0
        self.of: List[List[int]] = [[] for _ in book.cells]
        for number, (total, parts) in enumerate(relations):
            for cell in [total] + parts:
                self.of[cell].append(number)
        self.low = [it.low if it.is_hidable() else it.truth for it in book.cells]
        self.high = [it.high if it.is_hidable() else it.truth for it in book.cells]
        ends = Ends(self)
        self.spread(ends, range(len(relations)))
        for cell, value in ends.low.items():
            self.low[cell] = value
        for cell, most in ends.high.items():
            self.high[cell] = most

    def is_done(self) -> bool:
        """Whether all was looked at."""
        return self.work <= MOST_WORK

    def spread(self, ends: Ends, numbers: Iterable[int]) -> None:
        """Goes through relations, and again through those of each cell whose ends have moved."""
        waiting = list(numbers)
        queued = set(waiting)
        while waiting and self.is_done():
            number = waiting.pop()
            queued.discard(number)
            for cell in self.narrow(ends, number):
                new = [it for it in self.of[cell] if it != number and it not in queued]
                waiting += new
                queued.update(new)

    def narrow(self, ends: Ends, number: int) -> List[int]:
        """Narrows the cells of one relation; gives those whose ends have moved."""
        total, parts = self.relations[number]
        self.work += len(parts)
        moved = []
        lows, highs = [ends.least(it) for it in parts], [ends.greatest(it) for it in parts]
        low, high, open_ = sum(lows), sum(it for it in highs
                                          if it is not None), sum(1 for it in highs if it is None)
        if ends.raise_low(total, low) or (not open_ and ends.lower_high(total, high)):
            moved.append(total)
        if not open_ and ends.lower_high(total, high):
            moved.append(total)
        least, most = ends.least(total), ends.greatest(total)
        if most is None and open_ > 1:
            return moved
        for part, its_low, its_high in zip(parts, lows, highs):
            is_moved = most is not None and ends.lower_high(part, most - (low - its_low))
            if open_ - (its_high is None) == 0:
                is_moved = ends.raise_low(part, least - (high - (its_high or 0))) or is_moved
            if is_moved:
                moved.append(part)
        return moved

    def against(self, known: Set[int]) -> Dict[int, Room]:
        """The rooms of the cells whose ends differ for someone who knows some cells."""
        ends = Ends(self)
        for cell in known:
            ends.low[cell] = ends.high[cell] = self.book.cells[cell].truth
        self.spread(ends, sorted({number for cell in known for number in self.of[cell]}))
        return {
            cell: self.room(ends, cell)
            for cell in set(ends.low) | set(ends.high) if cell not in known
        }

    def room(self, ends: Ends, cell: int) -> Room:
        """How far a cell can go between its ends."""
        truth, most = self.book.cells[cell].truth, ends.greatest(cell)
        return Room(truth - ends.least(cell), None if most is None else most - truth)

    def own(self, cell: int) -> Room:
        """The room for the tables' readers."""
        return self.room(Ends(self), cell)


Known = Tuple[int, Set[int]]


def knowers(book: Book) -> List[Known]:
    """Each row that is alone in some cell, with the cells that its firm knows so."""
    found: Dict[int, Set[int]] = {}
    for cell, it in enumerate(book.cells):
        if it.freq == 1:
            found.setdefault(it.row, set()).add(cell)
    return sorted(found.items())
