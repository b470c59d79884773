"""How the launcher brings the program and runs it, in a made repository."""

import os
import shutil
import subprocess
import time

from made_repository import Tree, change, made_program
from support import Case, call, put, put_command, read


class First(Case):
    """The first call, which unpacks the program."""

    def test_with_rt_and_without(self) -> None:
        """The program is unpacked within seconds, also in a folder whose name has a blank."""
        for has_rt in (False, True):
            tree = Tree(os.path.join(self.folder, str(has_rt)), blanks=True)
            tree.make()
            begun = time.time()
            status, said, told = tree.ask("run", "0", has_rt=has_rt)
            self.wants(time.time() - begun < 5, "the first call takes less than five seconds")
            self.same((status, said), (0, "[run][0]\n"), "the first call")
            line = "argus: unpacked the program that was built from these very sources"
            self.wants(told.count("\n") == 1 and told.startswith(line), "it says %r" % told)
            begun = time.time()
            self.same(tree.ask("run", "3", has_rt=has_rt), (3, "[run][3]\n", ""), "the second call")
            self.wants(time.time() - begun < 1, "the second call takes less than a second")
            self.same(read(tree.at("out", "argus")), read(tree.made("argus")), "the program")
            self.same(tree.ask("cells", "x", has_rt=has_rt)[:2], (0, "[x]\n"), "cells")
            self.same(tree.asked_of_rt(), [], "what rt was asked")

    def test_links(self) -> None:
        """A link to argus, and a link to that, are argus, from every folder."""
        tree = Tree(self.folder, blanks=True).ready()
        os.mkdir("a b")
        os.symlink(os.path.relpath(tree.at("argus"), "a b"), os.path.join("a b", "link"))
        os.symlink(os.path.abspath(os.path.join("a b", "link")), "again")
        for link in (os.path.join("a b", "link"), "again"):
            words = [os.path.abspath(link), "a b", "0"]
            self.same(call(words, "/", tree.environment()), (0, "[a b][0]\n", ""), link)
            words = [os.path.abspath(link), "start", "--help"]
            self.same(call(words, "/", tree.environment()).status, 0, link + " start --help")

    def test_four_at_one_time(self) -> None:
        """First calls at one time each run the program."""
        tree = Tree(self.folder)
        tree.make()
        calls = [
            subprocess.Popen(
                [tree.at("argus"), "run", str(k)], cwd=tree.work, env=tree.environment(),
                stdin=subprocess.DEVNULL, stdout=subprocess.PIPE, stderr=subprocess.PIPE
            ) for k in range(4)
        ]
        for k, ran in enumerate(calls):
            said = ran.communicate()[0]
            self.same((said, ran.returncode), (b"[run][%d]\n" % k, k), "call %d of four" % k)
        self.same(os.listdir(tree.at("out")), ["argus"], "what is in out/")


class Words(Case):
    """What the program is given, and what it gives back."""

    def test_words_and_statuses(self) -> None:
        """The program's words, status and input pass through as they are."""
        tree = Tree(self.folder).ready()
        for status in range(9):
            wanted = (status, "[run][%d]\n" % status, "")
            self.same(tree.ask("run", str(status)), wanted, "status %d" % status)
        odd = "a \"b\" 'c' $d `e` *\n\\f \xe9"
        words = [tree.at("argus").encode(), odd.encode("latin-1"), b"0"]
        found = call(words, tree.work, tree.environment())
        self.same(found, (0, "[%s][0]\n" % odd, ""), "odd words")
        found = call(words, tree.work, tree.environment(ARGUS_EXPLAIN="1"))
        self.same(found[:2], (0, "[%s][0]\n" % odd), "odd words with explain asked for")
        self.same(tree.ask("input", text="one\n\xff\n"), (0, "one\n\xff\n", ""), "standard input")
        found = tree.ask("input", text="one\n", ARGUS_EXPLAIN="1")
        self.same(found, (0, "one\n", ""), "standard input with explain asked for")
        self.same(tree.ask()[:2], (1, "usage: argus WORDS\n"), "no words")


class Changed(Case):
    """Sources that were changed since the program was built."""

    def test_without_a_kit(self) -> None:
        """Where it can't be built, or may not be, one line says so."""
        tree = Tree(self.folder).ready()
        time.sleep(0.02)
        change(tree.main())
        status, said, told = tree.ask("run", "0")
        is_one_line = status == 125 and said == "" and told.count("\n") == 1
        self.wants(is_one_line and "rt isn't on the path" in told, "%d %r" % (status, told))
        status, said, told = tree.ask("run", "0", ARGUS_BUILD="0", has_rt=True)
        is_one_line = status == 125 and said == "" and told.count("\n") == 1
        self.wants(is_one_line and "begins no build" in told, "%d %r" % (status, told))
        self.same(tree.asked_of_rt(), [], "what rt was asked under ARGUS_BUILD=0")

    def test_with_a_kit(self) -> None:
        """It is built by proving; and where the change is taken back, unpacked again."""
        tree = Tree(self.folder).ready()
        time.sleep(0.02)
        change(tree.main())
        put_command(tree.made("argus"), made_program("argus", "the new one"))
        status, said, _ = tree.ask("run", "0", has_rt=True)
        self.same((status, said), (0, "[run][0]\n"), "the call that builds")
        asked = [it.split(" --")[0] for it in tree.asked_of_rt()]
        self.same(asked, ["version", "all check", "run"], "what rt was asked")
        self.wants("the new one" in read(tree.at("out", "argus")), "the program is the new one")
        self.same(tree.ask("run", "0", ARGUS_BUILD="1"), (0, "[run][0]\n", ""), "a later call")
        put(tree.main(), "// argus\n")
        status, _, told = tree.ask("run", "0")
        self.wants(status == 0 and "unpacked" in told, "taken back: %d %r" % (status, told))
        is_built = "as built from these sources" in read(tree.at("out", "argus"))
        self.wants(is_built, "the program is that of built/")


class Build(Case):
    """ARGUS_BUILD=1, with which the program is one that was proved and built here."""

    def test_it_is_proved_once(self) -> None:
        """Nothing is unpacked; what was proved here is run again."""
        tree = Tree(self.folder)
        tree.make()
        status, _, told = tree.ask("run", "0", ARGUS_BUILD="1")
        self.wants(status == 125 and "rt isn't on the path" in told, "%d %r" % (status, told))
        found = tree.ask("run", "0", has_rt=True, ARGUS_BUILD="1")
        self.same(found[:2], (0, "[run][0]\n"), "ARGUS_BUILD=1")
        self.wants("run" in tree.asked_of_rt(), "ARGUS_BUILD=1 proves")
        found = tree.ask("run", "0", has_rt=True, ARGUS_BUILD="1")
        self.same(found, (0, "[run][0]\n", ""), "ARGUS_BUILD=1 once more")
        self.same(tree.asked_of_rt(), [], "what rt was asked once more")

    def test_other_programs(self) -> None:
        """An unpacked program isn't one that was proved here, and neither is one put there."""
        tree = Tree(self.folder)
        tree.make()
        found = tree.ask("run", "0", ARGUS_BUILD="0")
        self.same(found[:2], (0, "[run][0]\n"), "ARGUS_BUILD=0 unpacks")
        tree.ask("run", "0", has_rt=True, ARGUS_BUILD="1")
        self.wants("run" in tree.asked_of_rt(), "ARGUS_BUILD=1 leaves the unpacked program")
        put_command(tree.at("out", "argus"), made_program("argus", "put there"))
        self.same(tree.ask("run", "0"), (0, "[run][0]\n", ""), "a program put into out/")
        tree.ask("run", "0", has_rt=True, ARGUS_BUILD="1")
        self.wants("run" in tree.asked_of_rt(), "ARGUS_BUILD=1 leaves a program put there")
        shutil.rmtree(tree.at("out"))
        self.same(tree.ask("run", "0").status, 0, "all of it again")
