"""`argus start` with several responses, and `argus together`: one pattern for their jobs."""

import csv
import io
import random
from typing import Dict, Set

from start_support import StartCase, start, told
from support import ask, content, put

JOBS = ("it_sales.job", "it_staff.job")
BOTH = ("it.csv", "--value", "sales", "--value", "staff")
# Two firms sell food in the north, and one of the south gives no number of staff.
HAND = (
    "region,branch,sales,staff\n" + "n,food,20,10\n" * 2 + "n,steel,9,90\nn,steel,8,80\n" * 2
    + "s,food,30,7\n" * 4 + "s,steel,40.5,8\n" * 4 + "s,wood,50,\n" * 2
)


def register(seed: int) -> str:
    """Firms with sales, and with staff where they say so."""
    luck = random.Random(seed)
    lines = ["region,branch,sales,staff"]
    for _ in range(70):
        sales = int(luck.paretovariate(1.1) * 10)
        staff = str(1 + int(luck.uniform(0.2, 2) * sales ** 0.7)) if luck.random() > 0.1 else ""
        codes = luck.choice("NNNSSW"), luck.choice("ABCCDD")
        lines.append("%s,%s,%d.5,%s" % (*codes, sales, staff))
    return "\n".join(lines) + "\n"


def table(name: str) -> Dict[str, str]:
    """The figures of a table by their codes."""
    rows = list(csv.reader(io.StringIO(told(name))))[1:]
    return {",".join(row[:-1]): row[-1] for row in rows}


def hidden(name: str) -> Set[str]:
    """The hidden cells of a table."""
    return {codes for codes, it in table(name).items() if it == "x"}


class Several(StartCase):
    """Jobs over the same records."""

    def test_jobs(self) -> None:
        """A job for each response, and nothing where one of them can't be taken."""
        put("it.csv", HAND)
        answer = start(*BOTH, "--by", "region", "--by", "branch", "--round", "sales=0")
        self.same(answer[::2], (0, ""), "the call")
        self.wants(answer.out.endswith("argus together it_sales.job it_staff.job"), answer.out)
        names = ["it.csv", *(it + end for it in ("it_sales", "it_staff")
                             for end in (".asc", ".job", ".rda"))]
        self.same(self.names(), names, "the files")
        self.same(told("it_sales.asc").split("\n")[-4], "s steel 41", "40.5 is rounded")
        for words, said, status in (
            (("--value", "sales"), "--value sales is there twice", 1),
            (("--value", "region"), "column region has two parts", 2),
        ):
            put("new/it.csv", HAND)
            answer = start("new/it.csv", *BOTH[1:], *words, "--by", "region")
            self.refused(answer, " ".join(words), said, status)

    def test_one_pattern(self) -> None:
        """All jobs hide the same cells but for those without records, and are accepted by argus and
        by the checker outside; at least one of these registers needs a second round.
        """
        again = 0
        for seed in range(8):
            put("it.csv", register(seed))
            start(*BOTH, "--by", "region", "--by", "branch", "--force")
            own = set()
            for job in JOBS:
                ask("run", job)
                own |= hidden(job[:-4] + "_table.csv")
            said = ask("together", *JOBS, "--force")
            self.wants(said.status == 0 and "\none pattern: " in said.out, said.out + said.err)
            again += " after 1 round;" not in said.out
            first, second = hidden("it_sales_table.csv"), hidden("it_staff_table.csv")
            zeros = {it for it in first if table("it_staff_table.csv")[it] == "0"}
            self.same((first - zeros, second - first), (second, set()), "register %d" % seed)
            for job in JOBS:
                made = job[:-4] + "_together.job"
                self.same(ask("check", made).out.strip(), "accepted", made)
        self.wants(again > 0, "no register needs a second round")

    def test_by_hand(self) -> None:
        """The lines of a job that hides for the other's sake; its own sensitive cells, those of an
        a priori file and those without records get none.
        """
        put("it.csv", HAND)
        start(*BOTH, "--by", "region", "--by", "branch", "--rule", "FREQ(3,30)")
        put("own.hst", "n;food;pl;1;9\nn;steel;pl;0;3\n")
        job = told("it_staff.job") + '<APRIORI> "own.hst",1,";"\n'
        put("it_staff.job", job)
        said = ask("together", *JOBS)
        self.same((said.status, said.err), (0, ""), "the call")
        # sales: north food and south wood (two firms each) are sensitive
        sales = hidden("it_sales_table.csv")
        self.wants({"n,food", "s,wood"} <= sales, "sales hides %s" % sorted(sales))
        lines = told("it_staff_together_1.hst").split("\n")
        self.same(lines[:2], ["n;food;pl;1;9", "n;steel;pl;0;3"], "the office's lines")
        more = [it for it in lines[2:] if it]
        unsafe = {it[:-2].replace(";", ",") for it in more if it.endswith(";u")}
        self.wants("n,steel" in unsafe and unsafe <= sales - {"n,food"}, "unsafe: %s" % unsafe)
        levels = {it.replace(",", ";") + ";pl;0;1" for it in unsafe - {"n,steel"}}
        self.same({it for it in more if not it.endswith(";u")}, levels, "their levels")
        self.same(told("it_staff.job"), job, "the office's job")

    def test_refused(self) -> None:
        """Files that are there, a cell that is declared safe, a job that rounds, wrong words."""
        put("it.csv", HAND)
        start(*BOTH, "--by", "region", "--by", "branch", "--rule", "FREQ(3,30)")
        put("it_staff_together.job", "mine")
        said = ask("together", *JOBS)
        self.refused(said, "a file", "it_staff_together.job is there already: --force replaces it")
        self.same(content("it_staff_together.job"), b"mine", "the file")
        ask("run", "it_sales.job")
        cells = [it for it in hidden("it_sales_table.csv") if not it.endswith("wood")]
        put("own.hst", "".join("%s,s\n" % it for it in cells))
        job = told("it_staff.job")
        put("it_staff.job", job + '<APRIORI> "own.hst",1,","\n')
        self.refused(ask("together", *JOBS, "--force"), "a safe cell", "it_staff.job declares", 3)
        put("it_staff.job", job.replace("MOD()", "RND(5)"))
        self.refused(ask("together", *JOBS), "rounding", "it_staff.job rounds, and hides nothing")
        self.refused(ask("together", "no.job", "it_sales.job"), "no job", "no.job: No such file")
        self.refused(ask("together", "it_sales.job"), "one job", "usage: argus together", 1)
