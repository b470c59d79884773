"""The words of argus: help, version, the companions', and the old paths."""

import os
import re
from typing import List

from made_repository import DAY, LOGIC, Tree
from support import TOP, Case, ask, call, environment, put, put_command, read

COMPANIONS = ("start", "explain", "page", "carry", "together", "whole", "seal")
# One-line scripts at the top, for one release.
OLD_PATHS = ("start", "explain", "page", "carry", "seal", "cells")


def commands() -> List[str]:
    """The commands of the program's usage line, each with its words."""
    printing = read(os.path.join(TOP, "crates", "job_run", "src", "printing.rt"))
    usage = re.search(r'"usage: argus ([^"]*)\\n"', printing)
    return [it.strip() for it in usage[1].split("|")] if usage else []


class Help(Case):
    """argus --help, and that of each word."""

    def test_programs_and_companions(self) -> None:
        """Each command has a line that says what it is for, and an example; programs come first."""
        status, said, told = Tree(self.folder).ask("--help")
        self.same((status, told), (0, ""), "argus --help")
        self.wants(len(commands()) >= 6, "the commands of the usage line: %r" % commands())
        programs, _, companions = said.partition("\nThe companions")
        for it in commands():
            line = r"(?m)^  argus %s  +\S.*\n +argus %s .*$" % (re.escape(it), it.split()[0])
            self.wants(re.search(line, programs) is not None, "a line and example for " + it)
        for it in COMPANIONS:
            line = r"(?m)^  argus %s \S.*\n +argus %s .*$" % (it, it)
            self.wants(re.search(line, companions) is not None, "a line and example for " + it)
        self.wants(re.search(r"(?m)^  argus cells JOB ", programs) is not None, "argus cells")
        wide = [it for it in said.splitlines() if len(it) > 100]
        self.same(wide, [], "lines that are too long for a terminal")

    def test_cells(self) -> None:
        """argus cells --help."""
        status, said, told = Tree(self.folder).ask("cells", "--help")
        self.same((status, told), (0, ""), "argus cells --help")
        for it in ("argus cells JOB --released", "argus cells JOB --relations"):
            self.wants(it in said, it)

    def test_companions(self) -> None:
        """Each companion has a help, or its usage line, that calls it by its new word."""
        for it in COMPANIONS:
            status, said, told = ask(it, "--help", folder="/")
            self.wants("argus %s " % it in said + told, "argus %s --help: %r" % (it, said + told))
            self.wants(status in (0, 1) and "Traceback" not in told, "argus %s --help" % it)
            status, said, told = ask(it, folder="/")
            self.same(status, 1, "status of argus %s without a word" % it)
            self.wants("usage: argus %s " % it in said + told, "argus %s: %r" % (it, said + told))

    def test_program_words(self) -> None:
        """Behind a command of the program, --help is the program's."""
        tree = Tree(self.folder).ready()
        self.same(tree.ask("run", "--help").out, "[run][--help]\n", "argus run --help")


class Version(Case):
    """argus --version."""

    def test_version(self) -> None:
        """Where the program came from, before and after it came."""
        tree = Tree(self.folder)
        line = "program not built from these sources yet: the next call proves and builds it"
        self.same(self.third(tree), line, "before all")
        tree.make()
        status, said, told = tree.ask("--version")
        self.same((status, told, said.count("\n")), (0, "", 3), "argus --version")
        wanted = ["argus, commit not known here (no clone of git)", "kit rattle-kit-13f " + LOGIC]
        self.same(said.split("\n")[:2], wanted, "commit and kit")
        line = "program in built/, made on %s from these very sources: the next call unpacks it"
        self.wants(re.fullmatch(line % DAY, self.third(tree)) is not None, self.third(tree))
        tree.ask("run", "0")
        line = "program from built/, made on %s from these very sources"
        self.wants(re.fullmatch(line % DAY, self.third(tree)) is not None, self.third(tree))
        tree.ask("run", "0", has_rt=True, ARGUS_BUILD="1")
        line = "program proved and built here on %s"
        self.wants(re.fullmatch(line % DAY, self.third(tree)) is not None, self.third(tree))

    def third(self, tree: Tree) -> str:
        """The line on the program."""
        return tree.ask("--version").out.split("\n")[2]


class Python(Case):
    """The companions, by the Python that is there."""

    def test_no_python(self) -> None:
        """Without python3 one line says what is wanted; the program is run all the same."""
        tree = Tree(self.folder).ready()
        python = os.path.join(tree.tools, "python3")
        os.remove(python)
        for it in COMPANIONS:
            wanted = "argus: argus %s needs Python 3.9 or later, and python3 isn't on the path\n"
            self.same(tree.ask(it, "x"), (125, "", wanted % it), "no python3, argus " + it)
        self.same(tree.ask("run", "0"), (0, "[run][0]\n", ""), "argus run without python3")
        put_command(python, '#!/bin/sh\n[ "$1" != -V ] || echo Python 3.8.2\nexit 1\n')
        for it in COMPANIONS:
            wanted = "argus: argus %s needs Python 3.9 or later, and python3 is Python 3.8.2\n"
            self.same(tree.ask(it, "x"), (125, "", wanted % it), "an old python3, argus " + it)
        self.same(tree.ask("run", "0"), (0, "[run][0]\n", ""), "argus run with an old python3")

    def test_names_of_modules(self) -> None:
        """Modules of the same name in the current folder or on PYTHONPATH are none of argus's."""
        tree = Tree(self.folder).ready()
        traps = os.path.join(self.folder, "traps")
        names = ("csv", "tempfile", "typing", "argus_office", "starting", "shutil", "re", "json")
        for name in names:
            for folder in (traps, tree.work):
                put(os.path.join(folder, name + ".py"), "raise SystemExit('%s')\n" % name)
        status, said, told = tree.ask("start", "--help", PYTHONPATH=traps, PYTHONHOME="/nowhere")
        self.same((status, told), (0, ""), "argus start --help")
        self.wants(said.startswith("argus start makes "), said)
        status, said, told = tree.ask("run", "0", ARGUS_EXPLAIN="1", PYTHONPATH=traps)
        self.same((status, said), (0, "[run][0]\n"), "a run that is explained: " + told)
        self.wants("SystemExit" not in told and "traps" not in told, told)
        left = sorted(set(os.listdir(tree.work)) - {name + ".py" for name in names})
        self.same(left, [], "what Python leaves in the folder")


class OldPaths(Case):
    """The paths that the companions and cells had."""

    def test_old_paths(self) -> None:
        """Each says the new word on standard error, and answers as before."""
        for it in OLD_PATHS:
            new = call([os.path.join(TOP, "argus"), it, "--help"], "/", environment())
            old = call([os.path.join(TOP, it), "--help"], "/", environment())
            self.same(old[:2], new[:2], it + " --help")
            line = "%s: is argus %s from now on\n" % (it, it)
            self.same(old.err, line + new.err, "what it says of the new path")
            os.symlink(os.path.join(TOP, it), it)
            self.same(call(["./" + it, "--help"], ".", environment()), old, "by a link to " + it)
