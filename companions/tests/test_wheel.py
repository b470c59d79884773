"""The wheel: what is in it, the same bytes each time, and what is installed of it.

`pip` is asked for nothing from a network. Where there is no venv, installing is skipped.
"""

import os
import shutil
import subprocess
import sys
import unittest
import zipfile
from typing import List

from support import COMPANIONS, TOP, Answer, Case, call, content, environment, example, program, put

NAME = "argus_office-0.1.0-py3-none-manylinux_2_34_x86_64.whl"
RELEASED = (
    "released: 13 records, 0 skipped, 0 passed over, 9 cells, 1 primary, 4 hidden\n"
)


def has_venv() -> bool:
    """Whether this Python makes environments that have pip."""
    words = [sys.executable, "-c", "import venv, ensurepip"]
    return subprocess.run(words, capture_output=True, check=False).returncode == 0


def built(folder: str) -> str:
    """The wheel, built into a folder by what pip calls too."""
    os.makedirs(folder, exist_ok=True)
    words = [sys.executable, "-B", os.path.join(COMPANIONS, "build_wheel.py"), folder]
    done = subprocess.run(words, capture_output=True, check=False, text=True)
    assert done.returncode == 0, done.stderr
    return os.path.join(folder, done.stdout.strip())


class Wheel(Case):
    """The file."""

    def test_the_same_bytes(self) -> None:
        """Built twice, from files of other times, in another folder: the same bytes."""
        first = content(built("one"))
        copy = os.path.join(self.folder, "copy")
        names = shutil.ignore_patterns("__pycache__", ".mypy_cache")
        shutil.copytree(COMPANIONS, os.path.join(copy, "companions"), ignore=names)
        shutil.copytree(os.path.join(TOP, "built"), os.path.join(copy, "built"))
        for at, _, files in os.walk(copy):
            for name in files:
                os.chmod(os.path.join(at, name), 0o600)
                os.utime(os.path.join(at, name), (10**9, 10**9))
        os.mkdir("two")
        script = os.path.join(copy, "companions", "build_wheel.py")
        done = subprocess.run([sys.executable, "-B", script, "two"], check=False)
        self.same(done.returncode, 0, "the status of the second")
        self.same(os.listdir("two"), [NAME], "its name")
        self.wants(content(os.path.join("two", NAME)) == first, "the bytes are the same")

    def test_what_is_in_it(self) -> None:
        """Every module of the package, and the built programs, which can be run."""
        with zipfile.ZipFile(built("one")) as wheel:
            names = set(wheel.namelist())
            modes = {it.filename: it.external_attr >> 16 & 0o777 for it in wheel.infolist()}
            argus = wheel.read("argus_office/built/argus")
        for at, _, files in os.walk(os.path.join(COMPANIONS, "argus_office")):
            for name in files:
                path = os.path.relpath(os.path.join(at, name), COMPANIONS)
                if "__pycache__" not in path and not name.endswith(".pyc"):
                    self.wants(path in names, path + " is in the wheel")
        self.same(argus, content(program("argus")), "the program argus")
        for name in ("argus", "cells"):
            self.same(modes["argus_office/built/" + name], 0o755, "the mode of " + name)
        self.same({it.split("/")[0] for it in names},
                  {"argus_office", "argus_office-0.1.0.dist-info"}, "its folders")

    def test_damaged_program(self) -> None:
        """No wheel is built of a program that isn't the one of its checksum."""
        copy = os.path.join(self.folder, "copy")
        shutil.copytree(COMPANIONS, os.path.join(copy, "companions"))
        shutil.copytree(os.path.join(TOP, "built"), os.path.join(copy, "built"))
        put(os.path.join(copy, "built", "sources.sum"), "argus 0\ncells 0\n")
        script = os.path.join(copy, "companions", "build_wheel.py")
        done = call([sys.executable, "-B", script, self.folder], ".")
        self.same((done.status, done.out), (1, ""), "a damaged program")
        self.wants("damaged program" in done.err and "Traceback" not in done.err, done.err)


@unittest.skipUnless(has_venv(), "this Python makes no environments")
class Installed(Case):
    """What pip installs, in an environment of its own, with no network."""

    def pip(self, *words: str) -> None:
        """Makes an environment and installs in it."""
        made = call([sys.executable, "-m", "venv", "env"], ".")
        self.same(made.status, 0, "venv: " + made.err)
        pip = [os.path.join("env", "bin", "pip"), "install", "-q", "--no-index", *words]
        env = environment(PIP_DISABLE_PIP_VERSION_CHECK="1", PIP_NO_INDEX="1")
        answer = call(pip, ".", env)
        self.same(answer.status, 0, "pip install: " + answer.err)

    def ask(self, *words: str, **more: str) -> Answer:
        """What the installed argus answers, with nothing else on the path."""
        argus = os.path.join(self.folder, "env", "bin", "argus")
        return call([argus, *words], ".", {"PATH": "/nowhere", "HOME": self.folder, **more})

    def walk(self) -> None:
        """A walk through the words: from a CSV to a page, in the folder of the example."""
        example("own", "firms.csv")
        words = ["start", "firms.csv", "--value", "turnover", "--by", "region", "--by", "branch"]
        answer = self.ask(*words)
        self.same(answer[::2], (0, ""), "argus start")
        self.same(answer.out.splitlines()[-2:],
                  ["  argus run firms.job", "  argus page firms.job"], "what comes next")
        for asked, said in self.answers():
            self.same(self.ask(*asked), (0, said, ""), "argus " + " ".join(asked))
        listing = content(os.path.join(TOP, "examples", "own", "firms.cells.expected"))
        self.same(self.ask("cells", "firms.job"), (0, listing.decode(), ""), "argus cells")
        for asked in (["--help"], ["start", "--help"], ["cells", "--help"], ["--version"]):
            self.same(self.ask(*asked)[::2], (0, ""), "argus " + " ".join(asked))
        self.same(self.ask().status, 1, "argus without a word")
        self.same(self.ask("run", "none.job").status, 2, "a job that isn't there")
        told = self.ask("run", "none.job", ARGUS_EXPLAIN="1")
        self.same(told.status, 2, "the same, explained")
        self.wants("none.job" in told.err, "the explanation: " + told.err)
        self.wants(not os.path.exists("out"), "nothing is unpacked into the current folder")

    def answers(self) -> List[List[object]]:
        """Calls with what they print."""
        released = RELEASED.replace("0 skipped", "1 skipped")
        return [
            [["run", "firms.job"], released], [["check", "firms.job"], "accepted\n"],
            [["seal", "firms.job"], "sealed: 3 inputs, 2 outputs, firms.seal\n"],
            [["seal", "--check", "firms.job"], "sealed\n"],
            [["page", "firms.job"], "page: firms.html\n"],
        ]

    def test_wheel(self) -> None:
        """pip install of the wheel."""
        self.pip(built("one"))
        self.walk()

    def test_clone(self) -> None:
        """pip install from the folder of a clone, which stays as it is."""
        before = sorted(os.listdir(COMPANIONS))
        self.pip("--no-build-isolation", COMPANIONS)
        self.same(sorted(os.listdir(COMPANIONS)), before, "the folder companions/")
        self.walk()
