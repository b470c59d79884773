"""The files that start writes, byte for byte, and those that may not be lost."""

import os
import re
import shlex
import shutil
from typing import Callable, Iterator
from unittest import mock

from start_support import StartCase, start, told
from support import ARGUS, TOP, ask, call, content, environment, put

from argus_office.starting import compare, layout, making, run

SMALL = "a,b,v\nx,1,10\ny,2,20\n"
CALL = ("it.csv", "--value", "v", "--by", "a")
# The files of such a call: those that it writes, and those that its job will write.
WRITTEN = ("it.asc", "it.rda", "it.job")
LATER = ("it_table.csv", "it.cert", "it.extra")


class Spelled(StartCase):
    """The files of two small CSVs, byte for byte; worked out by hand."""

    def check(self, text: str, words: str, **files: str) -> None:
        """One CSV; a name of `files` has `_` for the point."""
        put("it.csv", text, "utf-8")
        answer = start("it.csv", *words.split(" "))
        if self.wants(answer.status == 0, answer.err):
            for name, want in files.items():
                name = ".".join(name.rsplit("_", 1))
                self.same(content(name), want.encode("utf-8"), name)

    def test_marks_and_names(self) -> None:
        """Decimal commas, thousands, letters beyond ASCII, blanks, a weight and a total's code."""
        self.check(
            "a;b c;v;w\nx;;1.234,5;1\n\u00fcber;?;NA;2,25\n\" y \";B 1;1e+03;1,5\n",
            "--value v --by a --by b_c --weight w --missing NA --missing ? --total a=All "
            "--rule P(5)",
            it_rda='a 1 5\n<RECODEABLE>\n<TOTCODE> "All"\nb_c 7 3 "" ?\n<RECODEABLE>\n'
            "w 11 4\n<NUMERIC>\n<DECIMALS> 2\n<WEIGHT>\nv 16 6 NA\n<NUMERIC>\n<DECIMALS> 1\n",
            it_asc="x         1.00 1234.5\n\u00fcber ?   2.25     NA\ny     B 1 1.50 1000.0\n",
        )

    def test_rounding(self) -> None:
        """Numbers and weights with more decimals than are wanted; what is halfway goes up."""
        self.check(
            "a;v;w\nx;1,2349999999999;1,5\nx;0,125;2,33333\ny;0,135;1\ny;7;1\n",
            "--value v --by a --weight w --round v=2 --round w=1",
            it_asc="x 1.5 1.23\nx 2.3 0.13\ny 1.0 0.14\ny 1.0 7.00\n",
        )
        answer = start("it.csv", "--value", "v", "--by", "a", "--round", "v=2", "--force")
        # 1.23 - 1.2349999999999 and twice 0.005
        line = "  v: rounded to 2 decimals, by which 3 numbers changed, together by " \
            "+0.0050000000001"
        self.wants(line in answer.out.split("\n"), answer.out)

    def test_groups(self) -> None:
        """A tree by columns of groups, with a lead that no code begins with."""
        self.check(
            "k,g,h,v\n@1,G,H,1\n2,G,H,999\n3,I,H,999.0\n,,,5\n",
            "--value v --by k --parent k=g --parent g=h --missing 999",
            it_rda='k 1 2 ""\n<RECODEABLE>\n<HIERARCHICAL>\n<HIERCODELIST> "it_k.hrc"\n'
            "<HIERLEADSTRING> #\nv 4 5\n<NUMERIC>\n<DECIMALS> 1\n",
            it_asc="@1   1.0\n2       \n3  999.0\n     5.0\n",
            it_k_hrc="H\n#G\n##@1\n#I\n##3\n",
        )

    def test_own_example(self) -> None:
        """The files of examples/own are those that start makes, and argus finds in them what start
        says that it should.
        """
        example = os.path.join(TOP, "examples", "own")
        for line in told(os.path.join(example, "start.txt")).splitlines():
            words = shlex.split(line)
            stem = words[0].replace(".csv", "")
            folder = os.path.join(self.folder, stem)
            os.mkdir(folder)
            os.chdir(folder)
            shutil.copy(os.path.join(example, stem + ".csv"), stem + ".csv")
            answer = start(*words)
            self.same((answer.status, answer.err), (0, ""), stem)
            for made in [it for it in self.names() if it != stem + ".csv"]:
                kept = os.path.join(example, made + ".expected")
                self.wants(os.path.exists(kept), "examples/own has %s.expected" % made)
                self.same(content(made), content(kept), made)
            # The last two lines have the way to argus, which is another one from here.
            said = told(os.path.join(example, stem + ".said")).split("\n")
            self.same(answer.out.split("\n")[:-2], said[:-3], stem + ".said")
            self.same([it.split("argus ")[1] for it in said[-3:-1]],
                      ["run %s.job" % stem, "page %s.job" % stem], "the commands that come next")
            found = re.search(r"argus should find (.*?), (\d+ cells)", answer.out)
            ran = ask("run", stem + ".job").out
            is_found = found is not None and ran.startswith("released: " + found[1])
            self.wants(is_found and found is not None and found[2] in ran, "argus says " + ran)


class Kept(StartCase):
    """Files that may not be lost."""

    def anew(self) -> None:
        """A folder with the small CSV alone."""
        for name in self.names():
            os.remove(name)
        put("it.csv", SMALL)

    def test_files_that_are_there(self) -> None:
        """None is replaced without --force."""
        for name in (*WRITTEN, *LATER):
            self.anew()
            put(name, "mine\n")
            self.refused(start(*CALL), name, name)
            self.same(self.names(), sorted(["it.csv", name]), name + " is there: the folder")
            self.same(content(name), b"mine\n", name + " is there: the file")
            self.same(start(*CALL, "--force").status, 0, name + " with --force")

    def test_inputs(self) -> None:
        """An input is never written over, by whatever name."""
        for name in (*WRITTEN, *LATER):
            for link in (os.symlink, os.link):
                self.anew()
                link("it.csv", name)
                self.refused(start(*CALL, "--force"), name, "is an input")
                self.same(content("it.csv"), SMALL.encode(), "the CSV, linked as " + name)
                self.same(len(self.names()), 2, "the folder, with the CSV linked as " + name)

    def test_meanwhile(self) -> None:
        """A file that comes to a place while start is at work stays; what start put goes again."""
        good = compare.Comparison.run
        for name in WRITTEN:
            self.anew()

            def comes(it: compare.Comparison, name: str = name) -> int:
                put(os.path.join(os.path.dirname(it.folder), name), "mine\n")
                return good(it)

            with mock.patch.object(compare.Comparison, "run", comes):
                with mock.patch.object(run, "check_places"), \
                        mock.patch.object(making, "check_places"):
                    answer = start(*CALL)
            self.refused(answer, "meanwhile " + name, "is there already")
            self.same(self.names(), sorted(["it.csv", name]), name + " came: the folder")
            self.same(content(name), b"mine\n", name + " came: the file")

    def test_another_folder(self) -> None:
        """--out makes a folder, which goes again where nothing is written."""
        self.anew()
        self.same(start(*CALL, "--out", "new").status, 0, "--out new")
        self.same(sorted(os.listdir("new")), sorted(WRITTEN), "the files in it")
        put("bad.csv", "a,v\nx,-1\n")
        answer = start("bad.csv", "--value", "v", "--by", "a", "--out", "other")
        self.same(answer.status, 2, "a CSV that is refused")
        self.wants(not os.path.exists("other"), "its folder isn't left behind")

    def test_comparison(self) -> None:
        """A record that is written otherwise is found, whatever is changed in it."""
        good = layout.Layout.records
        changes = (
            lambda it: " " + it[:-2] + "\n", lambda it: it.replace("2", "3"), lambda it: "",
            lambda it: it.replace("y", "x"), lambda it: it + it, lambda it: it.replace("10", "1 "),
        )
        for number, change in enumerate(changes):
            self.anew()

            def records(
                it: layout.Layout, change: Callable[[str], str] = change
            ) -> Iterator[str]:
                return map(change, good(it))

            with mock.patch.object(layout.Layout, "records", records):
                answer = start(*CALL)
            self.refused(answer, "change %d" % number, "a fault of start's own", 3)
            self.same(self.names(), ["it.csv"], "change %d: the folder" % number)

    def test_the_command(self) -> None:
        """The command itself, as a newcomer calls it."""
        self.anew()
        calls = (
            ((), 1), (("it.csv",), 1), (("--help",), 0), (("it.csv", "--nonsense"), 1),
            (("none.csv", "--value", "v", "--by", "a"), 2), (CALL, 0), (CALL, 2),
        )
        for words, status in calls:
            answer = call([ARGUS, "start", *words], ".", environment())
            self.same(answer.status, status, "status of start " + " ".join(words))
            self.wants("Traceback" not in answer.err, answer.err)
            if status == 1:
                usage = answer.err.splitlines()[-1]
                self.wants(usage.startswith("usage: argus start DATA.csv --value COLUMN"), usage)
