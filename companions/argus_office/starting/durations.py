"""How long a job may take, by the times of jobs of its kind in the manual ("Sizes and times"), and
which coarser job takes less.

What counts is how many cells are hidden, which isn't known beforehand. So the kinds go by cells,
variables and levels, and the times are those of surveys in which a third of the cells is sensitive.
"""

from typing import List, NamedTuple, Sequence, Tuple

from argus_office.starting.depths import cells_of
from argus_office.starting.making import Making

MINUTE, MINUTES, LONGER = "up to a minute", "some minutes", "many minutes, or more"
# For each kind from which number of cells on a job takes longer than seconds, and how long.
Steps = Sequence[Tuple[int, str]]
FLAT: Steps = ((12000, MINUTE), (25000, MINUTES))
LEVELS: Steps = ((2000, MINUTE), (25000, MINUTES))
SOLID: Steps = ((2000, MINUTE), (4000, MINUTES), (12000, LONGER))
SOLID_LEVELS: Steps = ((1000, MINUTE), (3000, MINUTES), (12000, LONGER))


class Kind(NamedTuple):
    """What the time of a job goes by, as far as it is known beforehand."""

    cells: int
    # The most variables of a table.
    variables: int
    has_levels: bool
    tables: int = 1

    def time(self) -> str:
        """How long it may take; empty where that is seconds."""
        has_sums_across = self.has_levels or self.tables > 1
        if self.variables > 2:
            steps = SOLID_LEVELS if has_sums_across else SOLID
        else:
            steps = LEVELS if has_sums_across else FLAT
        found = ""
        for cells, time in steps:
            found = time if self.cells >= cells else found
        return found

    def words(self) -> str:
        """The kind in words."""
        text = "{:,} cells".format(self.cells)
        text += " in %d tables" % self.tables if self.tables > 1 else ""
        text += " of up to" if self.tables > 1 else " of"
        text += " %d variable%s" % (self.variables, "" if self.variables == 1 else "s")
        return text + (" with levels" if self.has_levels else "")


def duration_lines(making: Making) -> List[str]:
    """What start says of the time; nothing where it is seconds, or where the job rounds."""
    kind = kind_of(making)
    if making.is_rounded() or not kind.time():
        return []
    return ["A job of this kind, with %s, may take %s. %s" %
            (kind.words(), kind.time(), coarser(making))]


def kind_of(making: Making) -> Kind:
    """The kind of a job."""
    boxes = [making.boxes(it) for it in making.shapes]
    has_levels = any(
        len(making.trees[k].sizes[:last]) > 1 for table in boxes for k, last in table
    )
    return Kind(making.cells, max(map(len, boxes)), has_levels, len(boxes))


def coarser(making: Making) -> str:
    """The job with one level less of the variable with the most codes, or with fewer codes."""
    boxes = [making.boxes(it) for it in making.shapes]
    most = max(range(len(making.trees)), key=lambda k: making.trees[k].codes)
    tree, name = making.trees[most], making.made[making.spanning[most]]
    shown = max(last for table in boxes for k, last in table if k == most)
    level = min(shown, len(tree.sizes)) - 1
    if level < 1:
        return "Fewer codes of %s, which has {:,}, make it shorter.".format(tree.codes) % name
    cells = cells_of([cut(table, most, level) for table in boxes], making.trees)
    return "With %s:%d in place of all levels it has %s cells, and takes less." % (
        name, level, "{:,}".format(cells)
    )


def cut(table: Sequence[Tuple[int, int]], which: int, level: int) -> List[Tuple[int, int]]:
    """A table that shows a variable down to a level."""
    return [(k, min(last, level) if k == which else last) for k, last in table]
