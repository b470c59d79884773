"""What `argus explain` doubts after a release: who can work out more, and what was passed over."""

import unittest

from explain_support import explained
from support import ARGUS, Case, ask, put

RDA = (
    "Region 1 1\n<RECODEABLE>\nBranch 2 1\n<RECODEABLE>\nSales 3 4\n<NUMERIC>\n"
)
JOB = (
    '<OPENMICRODATA> "it.asc"\n<OPENMETADATA> "it.rda"\n<SPECIFYTABLE> "Region""Branch"|"Sales"\n'
    '<SAFETYRULE> FREQ(3,30)\n<SUPPRESS> MOD()\n<WRITETABLE> (1,"it.csv")\n'
    '<CERTIFICATE> "it.cert"\n'
)
# One firm in n a, two in n b, three in s a and four in s b.
ASC = "na  50\n" + "nb  10\n" * 2 + "sa  20\n" * 3 + "sb  21\n" * 4
KNOWS = (
    "1 sensitive cell can be worked out exactly by a firm that stands alone in another hidden "
    "cell: [n · b] by that of it.asc, line 1, which is alone in [n · a]. A line <CONTRIBUTORS> "
    '"FILE" in the job keeps such firms out (the manual, Singletons).'
)


class Doubts(Case):
    """Doubts by whole runs."""

    def doubts(self, asc: str = ASC, rda: str = RDA, more: str = "") -> "list[str]":
        """What is doubted of the release of a job."""
        put("it.asc", asc)
        put("it.rda", rda)
        put("it.job", JOB + more)
        said = ask("run", "it.job")
        self.same(said.out.split(" ")[0], "released:", said.out)
        return explained(["run", "it.job"], said.out).lines

    def test_insiders(self) -> None:
        """n a and n b are sensitive, and all four cells hidden. The firm in n a subtracts its 50
        from the 70 of n and has n b. With the line that keeps it out, nothing is said."""
        self.same(self.doubts(), [KNOWS], "the firm in n a")
        kept_out = self.doubts(ASC + "tc  40\n" * 3, more='<CONTRIBUTORS> "it.guards"\n')
        self.same(kept_out, [], "with <CONTRIBUTORS>")
        nobody = "".join(it + "  50\n" for it in ("na", "nb", "sa", "sb") for _ in range(3))
        self.same(self.doubts(nobody), [], "nothing is hidden")

    def test_total(self) -> None:
        """A record of 151 besides 50, 20, 60 and 21, and of 1 besides another of 1."""
        said = [it for it in self.doubts(ASC[:-7 * 3] + "sb 151\n") if "total" in it]
        self.same(said, [
            "it.asc, line 8: Sales is \"151\", as much as all other records together: is it a "
            "total that was left in the data?"
        ], "a total in the data")
        said = self.doubts("na   1\nsb   1\n")
        self.same([it for it in said if "total" in it], [], "two records alike")

    def test_passed_over(self) -> None:
        for word, says in (("HOLDING", "contributor of its own"), ("REQUEST", "asked for it")):
            rda = RDA + "Firm 2 1\n<%s>\n" % word
            said = [it for it in self.doubts(rda=rda) if "passed over" in it]
            self.same(len(said), 1, "%s: %s" % (word, said))
            self.wants(said[0].startswith("it.rda, line 8: <%s> is" % word), said[0])
            self.wants(says in said[0], said[0])

    def test_numbers_of_mod(self) -> None:
        """The form of tau-ARGUS, with its options for singletons."""
        put("it.asc", ASC)
        put("it.rda", RDA)
        put("it.job", JOB.replace("MOD()", "MOD(1, 5,1,1,1)"))
        said = ask("run", "it.job")
        self.same(said.out, "refused: job line 5: BadValue\n", ARGUS)
        lines = explained(["run", "it.job"], said.out).lines
        self.wants("<CONTRIBUTORS>" in "\n".join(lines), str(lines))


if __name__ == "__main__":
    unittest.main()
