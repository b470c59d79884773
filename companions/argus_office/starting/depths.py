"""Words such as `industry:2`: a column that spans a table, and the last level of its codes that the
table shows.

Levels count from 1, right below the total. A column whose own name ends so keeps its name.
"""

from typing import Dict, Iterable, List, NamedTuple, Optional, Sequence, Tuple

from argus_office.starting.csv_file import Source
from argus_office.starting.refusals import Refusal, counted, shown
from argus_office.starting.tree_files import MOST_LEVELS
from argus_office.starting.trees import Tree

# For each variable the levels that a table shows.
Box = Tuple[int, ...]


class Spanning(NamedTuple):
    """A column that spans a table, and the last level that the table shows; none where it shows
    all.
    """

    column: int
    level: Optional[int] = None

    def last(self) -> int:
        """The last level; where all are shown, the deepest that a tree can have."""
        return MOST_LEVELS if self.level is None else self.level


def spellings(word: str) -> Tuple[str, ...]:
    """The names of columns that a word may mean: the word as it stands, or what stands before its
    last colon.
    """
    column, colon, _ = word.rpartition(":")
    return (word, column) if colon and column else (word,)


def spanning(source: Source, made: Sequence[str], word: str) -> Spanning:
    """The column and the level of a word."""
    names = {*source.names, *made} - {""}
    column, colon, level = word.rpartition(":")
    if word in names or not colon or ("," in level and column in names):
        return Spanning(source.column(word, made))
    if column not in names:
        is_one = column and "," not in column and is_whole(level)
        return Spanning(source.column(column if is_one else word, made))
    if not is_whole(level) or level.lstrip("0") not in list("123456789"):
        what = "%s is no level" % shown(level) if level else "the level is missing"
        raise Refusal(
            "%s: %s" % (shown(word), what),
            "A level is a whole number from 1, right below the total, to %d, as in %s:2" %
            (MOST_LEVELS, shown(column))
        )
    return Spanning(source.column(column, made), int(level.lstrip("0")))


def is_whole(text: str) -> bool:
    """Whether a text is digits and nothing else."""
    return text.isascii() and text.isdigit()


def cells_of(tables: Sequence[Sequence[Tuple[int, int]]], trees: Sequence[Tree]) -> int:
    """How many cells the tables have, each shared one once.

    A table is its variables, each with the last level that it shows; a cell has a code of these
    levels for some variables of a table, and the total for all others.
    """
    boxes: Dict[Tuple[int, ...], List[Box]] = {}
    for table in tables:
        order = sorted(table)
        for chosen in range(1 << len(order)):
            part = [it for k, it in enumerate(order) if chosen >> k & 1]
            boxes.setdefault(tuple(k for k, _ in part), []).append(tuple(last for _, last in part))
    return sum(joined(found, [trees[k] for k in kind]) for kind, found in boxes.items())


def joined(boxes: Iterable[Box], trees: Sequence[Tree]) -> int:
    """How many choices of a code for each of some variables lie within at least one box: those of
    each box, less what it shares with those before it.
    """
    signs: Dict[Box, int] = {}
    for box in boxes:
        more = {box: 1}
        for other, sign in signs.items():
            both = tuple(min(a, b) for a, b in zip(box, other))
            more[both] = more.get(both, 0) - sign
        for it, sign in more.items():
            signs[it] = signs.get(it, 0) + sign
    return sum(sign * size(it, trees) for it, sign in signs.items() if sign)


def size(box: Box, trees: Sequence[Tree]) -> int:
    """How many choices of a code for each variable a box has."""
    product = 1
    for last, tree in zip(box, trees):
        product *= tree.within(last)
    return product


def depth_line(number: int, name: str, it: Spanning, tree: Tree) -> str:
    """What start says of a variable that a table shows down to a level."""
    there, cut = tree.codes, tree.within(it.last())
    codes = counted(there, "code")
    what = "%s of its %s" % ("{:,}".format(cut), codes)
    if cut == there:
        what = "all of its %s, which are no deeper" % codes
    return "  table %d: %s down to level %d, %s" % (number, name, it.last(), what)
