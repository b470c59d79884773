"""A run at a terminal, or with ARGUS_EXPLAIN=1: the answer, what explain makes of it, and how long
it took. In a made repository, with an explain that writes down what it was asked.
"""

import os
import re
import signal
import subprocess
import time
from typing import Any, Dict, List, Optional, Sequence, Tuple

from made_repository import Tree
from support import Answer, Case, call, put, read

# In place of explain: it notes its words and its input in the file that ASKED names.
EXPLAIN = """
import os
import sys

def main(words):
    with open(os.environ["ASKED"], "ab") as file:
        file.write(b"".join(b"(%s)" % os.fsencode(it) for it in words) + b"\\n")
        file.write(sys.stdin.buffer.read())
    print("what it means", flush=True)
    print("and on its standard error", file=sys.stderr)
    return 9
"""
MEANS = "what it means\nand on its standard error\n"


class Explained(Case):
    """What explain is asked, and what is said of it."""

    def setUp(self) -> None:
        super().setUp()
        self.tree = Tree(self.folder).ready()
        put(self.tree.at("companions", "argus_office", "explaining", "call.py"), EXPLAIN)
        self.asked = os.path.join(self.folder, "asked")

    def ask(self, *words: str, **more: Any) -> Answer:
        """What the launcher answers with ARGUS_EXPLAIN=1."""
        return self.tree.ask(*words, ASKED=self.asked, ARGUS_EXPLAIN="1", **more)

    def test_statuses(self) -> None:
        """Explain is asked after a release and after 2, 3 and 4; the answer and the status stay."""
        for status in range(8):
            said = self.ask("run", str(status), "0", "a b")
            answer = "[run][%d][0][a b]\n" % status
            if status in (0, 2, 3, 4):
                self.same(said, (status, answer, MEANS), "status %d" % status)
                wanted = "(run)(%d)(0)(a b)\n%s" % (status, answer)
                self.same(read(self.asked), wanted, "what explain was asked")
                os.remove(self.asked)
            else:
                self.same(said, (status, answer, ""), "status %d" % status)
                self.wants(not os.path.exists(self.asked), "not called after %d" % status)
        self.same(self.ask("check", "0"), (0, "[check][0]\n", ""), "a release that is accepted")

    def test_terminals(self) -> None:
        """At a terminal it is asked without a word, and with ARGUS_EXPLAIN=0 never."""
        for status in (0, 2):
            answer, asked = "[run][%d]\n" % status, {"ASKED": self.asked}
            found = self.tree.ask("run", str(status), **asked)
            self.same(found, (status, answer, ""), "status %d, no terminal" % status)
            found = self.tree.at_terminal("run", str(status), **asked)
            self.same(found, (status, answer, MEANS), "status %d, at a terminal" % status)
            found = self.tree.at_terminal("run", str(status), ARGUS_EXPLAIN="0", **asked)
            self.same(found, (status, answer, ""), "status %d, ARGUS_EXPLAIN=0" % status)

    def test_cells(self) -> None:
        """What cells says isn't explained."""
        self.tree.ask("cells", "x")
        self.same(self.ask("cells", "x", "2"), (2, "[x][2]\n", ""), "cells")

    def test_closed_streams(self) -> None:
        """The status is the program's also where the answer can't be written or nothing be read."""
        env = self.tree.environment(ASKED=self.asked, ARGUS_EXPLAIN="1")
        for to in (">/dev/full", ">&-"):
            found = call(["sh", "-c", '"$0" run 2 ' + to, self.tree.at("argus")], "/", env)
            self.same(found[:2], (2, ""), "standard output is " + to)
            self.wants("Traceback" not in found.err, "standard output is %s: %s" % (to, found.err))
        found = call(["sh", "-c", '"$0" run 4 <&-', self.tree.at("argus")], "/", env)
        self.same(found[:2], (4, "[run][4]\n"), "standard input is closed")

    def test_without_python(self) -> None:
        """Where there is no python3, or an old one, the program alone is run."""
        python = os.path.join(self.tree.tools, "python3")
        os.remove(python)
        self.same(self.ask("run", "2"), (2, "[run][2]\n", ""), "no python3 here")
        found = self.tree.at_terminal("run", "2", ASKED=self.asked)
        self.same(found, (2, "[run][2]\n", ""), "no python3 here, at a terminal")
        put(python, "#!/bin/sh\necho Python 3.8.2\nexit 1\n")
        os.chmod(python, 0o755)
        self.same(self.ask("run", "2"), (2, "[run][2]\n", ""), "an old python3")
        self.same(self.tree.left(), [], "what is left among the temporary files")


class Doubts(Case):
    """Explain itself after a release: a line for each doubt, and all else as without it."""

    JOB = (
        '<OPENMICRODATA> "firms.asc"\n<OPENMETADATA> "firms.rda"\n'
        '<SPECIFYTABLE> "Region"|"Turnover"\n<SUPPRESS> MOD()\n'
        '<WRITETABLE> (1,"table.csv")\n<CERTIFICATE> "table.cert"\n'
    )
    METADATA = "Region 1 5\n<RECODEABLE>\nTurnover 7 5\n<NUMERIC>\n"
    RECORDS = ["North     7", "North     9", "South    10"]
    # Its turnover is 2,000 times the next.
    FAR = "South 20000"
    IS_FAR = (
        '  firms.asc, line 4: Turnover is "20000", 2,000 times the next largest value: is it in '
        "another unit?\n"
    )
    NONE = "  firms.asc: no record counts (0 skipped), so every figure is 0.\n"

    def setUp(self) -> None:
        super().setUp()
        self.tree = Tree(self.folder).ready()
        put(os.path.join(self.tree.work, "it.job"), self.JOB)
        put(os.path.join(self.tree.work, "firms.rda"), self.METADATA)

    def answers(self, answer: str) -> None:
        """Has the program say this."""
        text = "#!/bin/sh\nprintf '%s'\n" % answer.replace("\n", "\\n")
        put(self.tree.at("out", "argus"), text)

    def test_doubts(self) -> None:
        """A record that is far from all others, and a file without one."""
        cases: Sequence[Tuple[List[str], str]]
        cases = ((self.RECORDS, ""), ([*self.RECORDS, self.FAR], self.IS_FAR), ([], self.NONE))
        for records, doubts in cases:
            count = "%d records" % len(records)
            lines = "".join(it + "\n" for it in records)
            put(os.path.join(self.tree.work, "firms.asc"), lines)
            end = "0 skipped, 0 passed over, 3 cells, 0 primary, 0 hidden\n"
            answer = "released: %s, %s" % (count, end)
            self.answers(answer)
            self.same(self.tree.ask("run", "it.job"), (0, answer, ""), count + ", no terminal")
            found = self.tree.ask("run", "it.job", ARGUS_EXPLAIN="1")
            self.same(found, (0, answer, doubts), count + ", explained")
            found = self.tree.at_terminal("run", "it.job")
            self.same(found, (0, answer, doubts), count + ", at a terminal")
            found = self.tree.ask("check", "it.job", ARGUS_EXPLAIN="1")
            self.same(found, (0, answer, ""), count + ", another command")

    def test_large_files(self) -> None:
        """Of a large file one line says that nothing was looked at, and how to have it done."""
        put(os.path.join(self.tree.work, "firms.asc"), (self.RECORDS[0] + "\n") * 900_000)
        end = "0 skipped, 0 passed over, 2 cells, 0 primary, 0 hidden\n"
        answer = "released: 900000 records, " + end
        self.answers(answer)
        status, said, told = self.tree.ask("run", "it.job", ARGUS_EXPLAIN="1")
        self.same((status, said, told.count("\n")), (0, answer, 1), "a large file")
        self.wants("10,800,000 bytes, so nothing was looked at" in told, told)
        self.wants("explain it.job 'released: 900000" in told, told)


class Overlaps(Case):
    """A line for each pair of variables that overlap; with the line <DEPTH> that it has, none."""

    JOB = (
        '<OPENMICRODATA> "firms.asc"\n<OPENMETADATA> "firms.rda"\n'
        '<SPECIFYTABLE> "Industry""Region"|"Turnover"\n<SPECIFYTABLE> %s"Region"|"Turnover"\n'
        '<SUPPRESS> MOD()\n<WRITETABLE> (1,"class.csv")\n<WRITETABLE> (2,"division.csv")\n'
        '<CERTIFICATE> "table.cert"\n'
    )
    METADATA = (
        "Industry 1 2\n<HIERARCHICAL>\n<HIERLEVELS> 1 1\nDivision 1 1\nRegion 4 5\nTurnover 10 5\n"
        "<NUMERIC>\n"
    )
    OVERLAP = (
        "  it.job: Industry and Division overlap: they share byte 1 of the record and each code of "
        "Industry occurs with a single code of Division. argus knows no sums between the two, and "
        "a reader of several tables can add up across them. If they are one classification, table "
        '2 takes Industry in place of Division, with <DEPTH> (2,"Industry",1).\n'
    )
    ANSWER = "released: 8 records, 0 skipped, 0 passed over, 21 cells, 0 primary, 0 hidden\n"

    def test_overlaps(self) -> None:
        """Of a large file such pairs are told too."""
        tree = Tree(self.folder).ready()
        put(os.path.join(tree.work, "firms.rda"), self.METADATA)
        text = "#!/bin/sh\nprintf '%s'\n" % self.ANSWER.replace("\n", "\\n")
        put(tree.at("out", "argus"), text)
        pairs = [(a, b) for a in ("11", "12", "21", "22") for b in ("North", "South")]
        records = "".join("%s %s %5d\n" % (industry, region, 10) for industry, region in pairs)
        cut = self.JOB % '"Industry"' + '<DEPTH> (2,"Industry",1)\n'
        both = ((self.JOB % '"Division"', self.OVERLAP), (cut, ""))
        for times, (job, doubt) in ((times, it) for times in (1, 90_000) for it in both):
            put(os.path.join(tree.work, "firms.asc"), records * times)
            put(os.path.join(tree.work, "it.job"), job)
            status, said, told = tree.ask("run", "it.job", ARGUS_EXPLAIN="1")
            large = told.count("so nothing was looked at but whether variables overlap")
            name = "%d records" % (8 * times)
            self.same((status, said, large), (0, self.ANSWER, int(times > 1)), name)
            is_so = told.endswith(doubt) and told.count("\n") == large + bool(doubt)
            self.wants(is_so, "%s: %r" % (name, told))
            self.same(tree.ask("run", "it.job"), (0, self.ANSWER, ""), name + ", no terminal")


class Ended(Case):
    """Long runs, and runs that are ended from outside."""

    def test_long_run(self) -> None:
        """From the sixth second on a line says how long it takes, and one at the end how long it
        took.
        """
        tree = Tree(self.folder).ready()
        status, said, told = tree.at_terminal("run", "3", "6.3", ARGUS_EXPLAIN="0")
        self.same((status, said), (3, "[run][3][6.3]\n"), "a run of six seconds")
        ticks = re.search(r"argus: running for 0:0[56] \(minutes:seconds\)\r", told)
        self.wants(ticks is not None, "a line while it runs: %r" % told)
        took = re.search(r"argus: took 0:0[678] \(minutes:seconds\)\n$", told)
        self.wants(took is not None, "a line at its end: %r" % told)
        found = tree.at_terminal("run", "0", "0", ARGUS_EXPLAIN="0")
        self.same(found, (0, "[run][0][0]\n", ""), "a short run")

    def test_coarser(self) -> None:
        """After a minute (here two seconds) without an answer a coarser job is named once, at a
        terminal, and of a job that can't be read nothing.
        """
        tree = Tree(self.folder).ready()
        attending = tree.at("companions", "argus_office", "attending.py")
        put(attending, read(attending).replace("WITHOUT_ANSWER = 60", "WITHOUT_ANSWER = 2"))
        put(os.path.join(tree.work, "firms.rda"), Overlaps.METADATA)
        put(os.path.join(tree.work, "firms.asc"), "11 North 1\n12 South 2\n21 South 3\n")
        put(os.path.join(tree.work, "it.job"), Overlaps.JOB % '"Division"')
        put(tree.at("out", "argus"), "#!/bin/sh\nsleep 4.3\necho said\n")
        for job, times in (("it.job", 1), ("no.job", 0)):
            status, said, told = tree.at_terminal("run", job, ARGUS_EXPLAIN="0")
            self.same((status, said), (0, "said\n"), job)
            line = "argus: no answer after a minute. A coarser job takes less: Industry has the " \
                'most codes (3); <DEPTH> (1,"Industry",1) leaves lower levels out'
            self.same(told.count(line), times, "%s: %r" % (job, told))

    def end(self, tree: Tree, number: int, more: Dict[str, Any]) -> Optional[str]:
        """Ends a run by a signal; what isn't as it has to be."""
        env = tree.environment(**more)
        words = [tree.at("argus"), "pid"]
        ran = subprocess.Popen(words, cwd=tree.work, env=env, stdin=subprocess.DEVNULL)
        pid, until = os.path.join(tree.work, "pid"), time.time() + 20
        while not os.path.exists(pid) and time.time() < until:
            time.sleep(0.02)
        child = int(read(pid))
        os.remove(pid)
        ran.send_signal(number)
        self.same(ran.wait(20), -number, "how argus ends by signal %d" % number)
        time.sleep(0.05)
        return "the program outlives its launcher" if os.path.exists("/proc/%d" % child) else None

    def test_signals(self) -> None:
        """The program ends before its launcher, which ends by the same signal."""
        tree = Tree(self.folder).ready()
        attended: Dict[str, Any] = {"ARGUS_EXPLAIN": "1"}
        for number in (signal.SIGTERM, signal.SIGINT, signal.SIGHUP):
            self.same(self.end(tree, number, {}), None, "signal %d" % number)
            self.same(self.end(tree, number, attended), None, "signal %d, attended" % number)
        self.same(tree.left(), [], "what is left among the temporary files")

    def test_ignored_signal(self) -> None:
        """A hangup that is ignored, as by nohup, leaves an attended run alone."""
        tree = Tree(self.folder).ready()
        script = "trap '' HUP; \"$0\" run 3 1 & sleep 0.4; kill -HUP $!; wait $!"
        env = tree.environment(ARGUS_EXPLAIN="1", ASKED=os.devnull)
        found = call(["sh", "-c", script, tree.at("argus")], tree.work, env)
        self.same(found[:2], (3, "[run][3][1]\n"), "a run that outlives a hangup")
