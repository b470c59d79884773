"""CSVs as many programs write them: the sums of what start makes of each."""

import shutil
from typing import Sequence

from start_support import Above, Row, StartCase, flat, start
from support import put
from writers import GROUPS, WAYS, Way, register

TABLES = (("region", "branch"), ("region", "size"))
BOTH = ("--table", "region,branch", "--table", "region,size")
TREE = "".join("%s\n@%s1\n@%s2\n@%s3\n" % (GROUPS[it], it, it, it) for it in "ABC")


def by_digit(column: str, row: Row) -> Sequence[str]:
    """The code above a branch, by its first letter."""
    code = row[column].strip()
    return (code[:1],) if column == "branch" and len(code) > 1 else ()


def by_group(way: Way) -> Above:
    """The code above a branch: its group, but none above a code that means no answer."""
    def above(column: str, row: Row) -> Sequence[str]:
        is_code = row[column].strip(" \t") not in ("", way.missing)
        return (row["group"].strip(" \t"),) if column == "branch" and is_code else ()
    return above


class Ways(StartCase):
    """Each way of writing, in four jobs: flat, by digits, by a column of groups, and by a hierarchy
    file, some with weights.
    """

    def check(
        self, way: Way, words: Sequence[str], tables: Sequence[Sequence[str]], weight: str = "",
        above: Above = flat
    ) -> None:
        """One job: the sums, and the number of cells that start says."""
        name = "%s, %s" % (way.name, " ".join(words))
        answer = start("it.csv", "--value", "turnover", "--force", *way.words, *words)
        if self.wants(answer.status == 0, "%s: %s" % (name, answer.err)):
            cells = self.agree(name, way, tables, weight or None, above)
            self.wants(" %d cells." % cells in answer.out, "%s: %d cells" % (name, cells))

    def written(self, number: int, way: Way) -> None:
        """A register in a way of writing, and what start makes of it."""
        put("it.csv", way.write(register(number, 90), way), way.encoding)
        put("branch.hrc", TREE, way.encoding)
        group = by_group(way)
        self.check(way, ("--by", "region", "--by", "branch"), (("region", "branch"),))
        words = (*BOTH, "--levels", "branch=1,1", "--weight", "weight")
        self.check(way, words, TABLES, "weight", by_digit)
        self.check(way, (*BOTH, "--parent", "branch=group"), TABLES, "", group)
        words = (*BOTH, "--tree", "branch=branch.hrc", "--weight", "weight")
        self.check(way, (*words, "--rule", "NK(1,75)|WGT(1)"), TABLES, "weight", group)

    def test_ways(self) -> None:
        """All ways of writing."""
        self.assertGreaterEqual(len(WAYS), 22)
        for number, way in enumerate(WAYS):
            self.written(number, way)
            for name in self.names():
                shutil.rmtree(name, True)
