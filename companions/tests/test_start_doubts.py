"""Codes in the order of a list, and what start doubts: levels and lists that don't fit codes."""

from typing import Sequence

from start_support import StartCase, start, told
from support import call, content, program, put

from argus_office.starting.durations import LONGER, MINUTE, MINUTES, Kind

# Jobs that were measured (docs/MANUAL.md, "Sizes and times"): cells, variables, whether there are
# levels, and seconds.
MEASURED = (
    (11236, 2, False, 3.1), (1681, 2, False, 0.2), (4001, 1, False, 7.9), (336, 2, True, 0.05),
    (1725, 2, True, 1), (12321, 2, True, 6.9), (12576, 2, True, 27), (24336, 2, True, 32),
    (180, 3, False, 0.01), (729, 3, False, 7), (1872, 3, False, 3), (3675, 3, True, 10),
    (7812, 3, True, 40), (510, 2, True, 0.1), (3060, 3, True, 86),
)
# The most seconds that are meant.
AT_MOST = {"": 10, MINUTE: 60, MINUTES: 600, LONGER: 10**9}
SIZES = "s,v\n250+,1\n1-9,2\n,3\n10,4\n50-249,5\n1-9,6\n"
LIST = '1-9,"small, very"\r\n"10-49"\r\n50-249\r\n250+\r\nTotal\r\n1-9\r\n'


class Doubts(StartCase):
    """What start says and doesn't refuse."""

    def doubts(self, codes: Sequence[str], levels: str) -> str:
        """What is doubted of codes with these levels."""
        put("it.csv", "k,v\n" + "".join("%s,1\n" % it for it in codes))
        answer = start("it.csv", "--value", "v", "--by", "k", "--levels", "k=" + levels, "--force")
        self.same(answer[::2], (0, ""), "%s with %s" % (", ".join(codes), levels))
        return "\n".join(it for it in answer.out.split("\n") if it.startswith("Doubt"))

    def test_levels(self) -> None:
        """Codes that end between two levels, a level that no code has, and those that fit."""
        said = self.doubts(["101", "1021", "10311"], "2,2,2")
        self.wants("end behind 2, 4 and 6 bytes, and 2 codes end between these: 101, 10311. Is "
                   "2,1,1,1 meant?" in said, said)
        said = self.doubts(["10311", "20122"], "2,2,2")
        self.wants("2 codes end between these: 10311, 20122. Is 2,2,1 meant?" in said, said)
        said = self.doubts(["1011", "2012"], "2,2,2")
        self.wants("no code has more than 4 bytes, and --levels k=2,2,2 has 6. Is 2,2 meant?"
                   in said, said)
        self.same(self.doubts(["10", "1111", "111211", ""], "2,2,2"), "", "codes that fit")

    def test_order(self) -> None:
        """The lines of a table have the order of the list, with or without a byte order mark; then
        come codes that it lacks.
        """
        put("it.csv", SIZES)
        for mark, name in (("", "list.cdl"), ("\xef\xbb\xbf", "it_s.cdl")):
            put("list.cdl", mark + LIST)
            answer = start(
                "it.csv", "--value", "v", "--by", "s", "--order", "s=list.cdl", "--force",
                "--rule", "FREQ(1,0)"
            )
            self.same(answer[::2], (0, ""), name)
            self.wants('<CODELIST> "%s"' % name in told("it.rda"), told("it.rda"))
            lines = [it for it in answer.out.split("\n") if it.startswith("Doubt")]
            self.same(lines, [
                "Doubt: the code list of s lacks 1 code, which comes after it: 10.",
                "Doubt: 1 code of the code list of s is in no record, and will show 0: 10-49.",
            ], "the doubts")
            said = call([program("argus"), "run", "it.job"], self.folder).out
            self.wants("6 records" in said and " 7 cells" in said and " 7 cells" in answer.out,
                       said + answer.out)
            want = "s,v\nTotal,21\n1-9,8\n10-49,0\n50-249,5\n250+,1\n,3\n10,4\n"
            self.same(told("it_table.csv"), want, "the table, " + name)
        self.same(content("it_s.cdl").decode("latin-1"), LIST, "the list written anew")

    def test_durations(self) -> None:
        """No measured job took longer than what start says of its kind; a small one has no line,
        and a large one names the job with a level less and its cells.
        """
        for cells, variables, has_levels, seconds in MEASURED:
            kind = Kind(cells, variables, has_levels)
            self.wants(seconds <= AT_MOST[kind.time()], "%r: %s" % (kind, kind.time()))
        lines = ["k,s,v"]
        for k in range(100):
            lines += ["%d,%d,1" % (100 + k, s) for s in range(30)]
        put("it.csv", "\n".join(lines) + "\n")
        words = ("it.csv", "--value", "v", "--by", "k", "--by", "s", "--force")
        self.wants("A job of this kind" not in start(*words).out, "3,131 cells of flat codes")
        said = start(*words, "--levels", "k=2,1").out
        # 100 codes, 10 above them and the total, by 30 codes and the total; without the 100
        self.wants("with 3,441 cells of 2 variables with levels, may take up to a minute. With k:1 "
                   "in place of all levels it has 341 cells, and takes less.\n" in said, said)
        words = ("it.csv", "--value", "v", "--by", "k:1", "--by", "s", "--force")
        said = start(*words, "--levels", "k=2,1").out
        self.wants("A job of this kind" not in said and " 341 cells." in said, said)
