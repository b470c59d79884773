"""Tables of counts: the a priori files byte for byte, and what a reader of a release may learn."""

import os
from typing import List, Sequence

from start_support import StartCase, start, told
from support import ask, call, example, program, put
from whole_tables import Grid, Key, Reader, grids

from argus_office.reading.certificate import Certificate
from argus_office.whole import moved

NO_LIMIT = 1000000000000
LEVELS = "k,s\n11,a\n11,a\n12,b\n2,\n"
# What is known of the cells of LEVELS, worked out by hand: the codes, the records, and for fewer
# than three of them the levels.
FIRST = (
    ("1,Total", 3, ""), ("1,a", 2, "1,1"), ("1,b", 1, "0,2"), ("2,", 1, "0,2"),
    ("2,Total", 1, "0,2"), ("Total,", 1, "0,2"), ("Total,Total", 4, ""), ("Total,a", 2, "1,1"),
    ("Total,b", 1, "0,2"),
)
SECOND = (("1", 3, ""), ("11", 2, "1,1"), ("12", 1, "0,2"), ("2", 1, "0,2"), ("Total", 4, ""))
# The sides of tables, how many of each are tried, and the rule with the first count that is safe.
SHAPES = (
    ((4,), 4, 3), ((2, 2), 8, 3), ((2, 3), 8, 4), ((3, 3), 8, 3), ((3, 4), 8, 3),
    ((2, 2, 2), 8, 3),
)


def run() -> str:
    """What argus answers to the job."""
    return call([program("argus"), "run", "it.job"], os.getcwd()).out


class Counts(StartCase):
    """`start --count`."""

    def test_lines(self) -> None:
        """Each cell with records has its bounds, each sensitive one its levels, in two tables with
        levels, a depth and a missing code.
        """
        put("it.csv", LEVELS)
        words = "it.csv --count --table k:1,s --table k --levels k=1,1 --rule FREQ(3,0)"
        answer = start(*words.split())
        self.same(answer[::2], (0, ""), "the call")
        for name, cells in (("it_counts1.hst", FIRST), ("it_counts2.hst", SECOND)):
            want = ""
            for codes, _, levels in cells:
                want += "%s,b,1,%d\n" % (codes, NO_LIMIT)
                want += "%s,pl,%s\n" % (codes, levels) if levels else ""
            self.same(told(name), want, name)
        self.wants(run().startswith("released: 4 records, 0 skipped, 0 passed over, "), run())
        self.wants("argus whole it.job\n" in answer.out, "whole comes next: " + answer.out)

    def test_marks(self) -> None:
        """A comma in a code, a column called count, and a rounded table, of which nobody learns
        where there are records.
        """
        put("it.csv", 'a,count\n"x,y",1\nz,2\nz,3\nz,4\n')
        answer = start("it.csv", "--count", "--by", "a", "--by", "count")
        self.same(answer[::2], (0, ""), "the call")
        self.wants("argus whole" not in answer.out, "nor whole: " + answer.out)
        self.wants('"a""count"|"count_2"' in told("it.job"), told("it.job"))
        self.wants('<APRIORI> "it_counts.hst",1,";"\n' in told("it.job"), told("it.job"))
        self.wants(run().startswith("released: 4 records"), run())
        answer = start("it.csv", "--count", "--by", "a", "--method", "RND(3)", "--force")
        self.same(answer[::2], (0, ""), "the rounded one")
        self.same(told("it_counts.hst"), "x,y;pl;0;2\n", "its lines")
        self.wants(run().startswith("released: 4 records"), run())

    def test_refused(self) -> None:
        """What doesn't go with counts."""
        put("it.csv", "a,v\nx,1\ny,2\n")
        for more, said, status in (
            ("--rule P(10)", "Counts take FREQ(n,r): those from 1 to n - 1 are sensitive", 2),
            ("--rule FREQ(3,30)|MAN(20)", "--rule MAN(20), and --count", 2),
            ("--value v", "give one of the two", 1),
            ("--weight v", "they would be estimates", 1),
            ("--apriori 1=it.csv", "add your lines to these", 1),
        ):
            answer = start("it.csv", "--count", "--by", "a", *more.split())
            self.refused(answer, more, said, status)
        self.same(self.names(), ["it.csv"], "the files")

    def test_readers(self) -> None:
        """By exhaustion: behind each released table of counts there are whole tables in which a
        sensitive count is as small as its cells with records allow, and others in which it isn't
        sensitive; and every count that is shown is 0 or safe, and true.
        """
        for seed, (sides, number, safe) in enumerate(SHAPES):
            for grid in grids(seed, sides, number):
                self.reads(grid, sides, safe)

    def reads(self, grid: Grid, sides: Sequence[int], safe: int) -> None:
        """One table."""
        put("it.csv", grid.csv())
        by: List[str] = [it for name in "abc"[: len(sides)] for it in ("--by", name)]
        answer = start("it.csv", "--count", *by, "--rule", "FREQ(%d,30)" % safe, "--force")
        said = run()
        if not self.wants(said.startswith("released: "), "%s%s: %s" % (answer.err, said, grid)):
            return
        reader = Reader(told("it_table.csv"))
        for key, shown in reader.shown.items():
            count, choices = grid.count(key), grid.choices(key)
            if shown is not None:
                is_fit = shown == count and (count == 0 or count >= safe)
                self.wants(is_fit, "%s shows %d: %s" % (key, shown, grid))
            elif count < safe:
                self.is_open(reader, grid, key, (choices, safe))

    def is_open(self, reader: Reader, grid: Grid, key: Key, values: Sequence[int]) -> None:
        """A hidden cell can have each of these values."""
        for value in values:
            self.wants(reader.can_be(key, value), "%s can't be %d: %s" % (key, value, grid))


class Whole(StartCase):
    """`argus whole`."""

    def test_moved(self) -> None:
        """Only tables without fractions count, for every cell that they move."""
        lines = (
            "hidden 1 2 3", "world 1 above 1 1:1 2:-1", "world 2 above 2 2:3 3:-3 7:1",
            "world 3 below 2 3:-2 4:2", "world 9 below 1", "need 5 1 above 1 6:1", "",
        )
        text = "\n".join(["argus certificate 2", *lines])
        found = moved(Certificate(text.encode("ascii")).worlds)
        self.same(found, {1, 2, 3, 4}, "the cells that are moved")

    def test_jobs(self) -> None:
        """A table of three variables of which the manual says that one number determines all hidden
        cells, and in which its sensitive cell can be 11, with whole numbers in all other cells; a
        release that was changed; and none.
        """
        example("insider", "cube.asc", "cube.hst", "cube.job", "cube.rda")
        said = ask("whole", "cube.job")
        self.same((said.status, said.out), (2, ""), "before the run: " + said.err)
        ask("run", "cube.job")
        said = ask("whole", "cube.job")
        line = "whole: 8 of 8 sensitive cells have another value in a whole table\n"
        self.same(said, (0, line, ""), "cube.job")
        put("cube.cert", told("cube.cert").replace("world 30 above", "world 30 below"))
        said = ask("whole", "cube.job")
        self.wants(said.status == 3 and "argus check cube.job says" in said.err, said.err)
