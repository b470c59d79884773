"""Tables of counts as a reader sees them, and by exhaustion whole tables that may be behind one.

A reader of a released table of counts knows the figures shown, that an `x` isn't 0, that all are
whole, and that margins add up. Nothing here uses what argus says of a table.
"""

import csv
import io
import random
from itertools import product
from typing import Dict, Iterator, List, NamedTuple, Optional, Sequence, Tuple

# The codes of a cell; an empty one is the total.
Key = Tuple[str, ...]


def is_in(codes: Key, key: Key) -> bool:
    """Whether an inner cell lies in a cell."""
    return all(not wanted or wanted == it for wanted, it in zip(key, codes))


class Reader:
    """What a reader of one released table knows, and what the reader can work out from it."""

    def __init__(self, text: str) -> None:
        self.shown: Dict[Key, Optional[int]] = {}
        for row in list(csv.reader(io.StringIO(text)))[1:]:
            key = tuple("" if it == "Total" else it for it in row[:-1])
            self.shown[key] = None if row[-1] == "x" else int(row[-1])
        inner = [key for key in self.shown if all(key)]
        self.unknown = [key for key in inner if self.shown[key] is None]
        # For each margin the unknown cells below it, and what is left for these: none where the
        # margin itself is hidden.
        self.rows: List[Tuple[List[int], Optional[int]]] = []
        for key, value in self.shown.items():
            if not all(key):
                below = [it for it in inner if is_in(it, key)]
                known = sum(self.shown[it] or 0 for it in below)
                left = [k for k, it in enumerate(self.unknown) if it in below]
                self.rows.append((left, None if value is None else value - known))
        self.in_rows = [
            [r for r, (left, total) in enumerate(self.rows) if k in left and total is not None]
            for k in range(len(self.unknown))
        ]

    def hidden(self) -> List[Key]:
        """The cells that are hidden."""
        return [key for key, it in self.shown.items() if it is None]

    def can_be(self, key: Key, value: int) -> bool:
        """Whether there is a whole table in which a hidden cell has this value."""
        parts = [it for it in self.shown if all(it) and is_in(it, key)]
        known = sum(self.shown[it] or 0 for it in parts)
        wanted = [k for k, it in enumerate(self.unknown) if it in parts]
        rows = [*self.rows, (wanted, value - known)]
        in_rows = [[*it, len(rows) - 1] if k in wanted else it for k, it in enumerate(self.in_rows)]
        left = [0 if total is None else total for _, total in rows]
        open_ = [len(it) for it, _ in rows]
        told = [r for r, (_, total) in enumerate(rows) if total is not None]
        if any(left[r] < open_[r] or (left[r] and not open_[r]) for r in told):
            return False
        return fill(0, in_rows, left, open_)


def fill(k: int, in_rows: Sequence[Sequence[int]], left: List[int], open_: List[int]) -> bool:
    """Whether the unknown cells from the k-th on can be filled with whole numbers from 1, so that
    nothing is left in a row.
    """
    if k == len(in_rows):
        return True
    mine = in_rows[k]
    if not mine:
        return fill(k + 1, in_rows, left, open_)
    # (each other cell of a row needs 1, and the last takes all that is left)
    least = max([1, *(left[r] for r in mine if open_[r] == 1)])
    most = min(left[r] - open_[r] + 1 for r in mine)
    for value in range(least, most + 1):
        for r in mine:
            left[r] -= value
            open_[r] -= 1
        is_filled = fill(k + 1, in_rows, left, open_)
        for r in mine:
            left[r] += value
            open_[r] += 1
        if is_filled:
            return True
    return False


class Grid(NamedTuple):
    """A table of counts by some variables: the counts of its inner cells."""

    counts: Dict[Key, int]

    def csv(self) -> str:
        """The records, one a line."""
        width = len(next(iter(self.counts)))
        lines = [",".join(["firm", *"abcdef"[:width]])]
        for key, count in self.counts.items():
            lines += [",".join(["", *key])] * count
        return "\n".join(lines) + "\n"

    def below(self, key: Key) -> List[int]:
        """The counts of the inner cells in a cell."""
        return [it for codes, it in self.counts.items() if is_in(codes, key)]

    def count(self, key: Key) -> int:
        """The count of a cell, margins too."""
        return sum(self.below(key))

    def choices(self, key: Key) -> int:
        """How many inner cells with records a cell has."""
        return sum(it > 0 for it in self.below(key))


def grids(seed: int, sides: Sequence[int], number: int) -> Iterator[Grid]:
    """Some made-up tables with many small counts."""
    luck = random.Random(seed)
    codes = ["pqrstuv"[:it] for it in sides]
    while number:
        most = luck.choice((2, 3, 5, 9))
        counts = {tuple(key): luck.choice((0, 1, 1, 2, most)) for key in product(*codes)}
        if any(counts.values()):
            yield Grid(counts)
            number -= 1
