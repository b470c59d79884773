"""A made repository of two small crates, in which the launcher, the scripts of built/ and the
gate's script are tried: with programs that say how they were called, with a command rt that only
writes down its words, and with a path that has nothing but what is named here. So nothing is
proved, and nothing of this checkout is built.
"""

import hashlib
import os
import pty
import re
import select
import shutil
import subprocess
import sys
from typing import Any, Dict, List

from support import TOP, Answer, call, put, put_command, read

# All that the launcher and the scripts call; rt isn't among them.
TOOLS = (
    "sh awk basename cat chmod cmp cp cut date dirname find flock getconf git grep gzip head kill "
    "ln mkdir mkfifo mktemp mv nproc readlink rm sed sha256sum sleep sort stty tail tee timeout "
    "touch tr uname wc"
).split()
LOGIC = "logic dac8208d650f15bf"
DAY = r"\d{4}-\d\d-\d\d"
# A program that says how it was called. It ends with the status of its second word, after as many
# seconds as its third says.
PROGRAM = """#!/bin/sh
# %(mark)s
[ $# -gt 0 ] || { echo "usage: %(name)s WORDS"; exit 1; }
[ "$1" != input ] || exec cat
[ "$1" != pid ] || { echo $$ >pid.new; mv pid.new pid; exec sleep 20; }
sleep "${3:-0}"
printf '[%%s]' "$@"
echo
exit "${2:-0}"
"""
# rt writes down its words; `all check` proves, and `run` leaves the program of the crate that it
# stands in.
RT = """#!/bin/sh
echo "$*" >>"%(log)s"
case $1 in
version) echo "rattle-kit-13f %(logic)s" ;;
all) echo "== argus_prog" ;;
run)
    mkdir -p out
    name=$(basename "$PWD")
    cp "%(made)s/${name%%_prog}" "out/$name"
    "out/$name"
    ;;
ci) cat "%(folder)s/ci.says"; exit "$(cat "%(folder)s/ci.status")" ;;
esac
"""
# The Python that the made repository has, with no folder of a user's own.
PYTHON = os.path.realpath(sys.executable)


def copied(name: str, folder: str) -> str:
    """A folder of this repository, or a file, copied into a folder."""
    source, to = os.path.join(TOP, name), os.path.join(folder, name)
    if os.path.isdir(source):
        shutil.copytree(source, to, ignore=shutil.ignore_patterns("__pycache__", ".mypy_cache"))
    else:
        os.makedirs(os.path.dirname(to), exist_ok=True)
        shutil.copy2(source, to)
    return to


def made_program(name: str, mark: str = "as built from these sources") -> str:
    """The text of a program, with a mark to know it by."""
    return PROGRAM % {"mark": mark, "name": name}


class Tree:
    """A repository with the launcher of this one, two small crates, and two programs that the
    crates are said to build.
    """

    def __init__(self, folder: str, blanks: bool = False) -> None:
        os.makedirs(folder, exist_ok=True)
        self.folder = folder
        self.top = os.path.join(folder, "the tree" if blanks else "tree")
        for name in ("argus", "built", "companions/argus_office"):
            copied(name, self.top)
        for name in os.listdir(self.at("built")):
            if name.endswith((".gz", ".sum")) or name.startswith("new."):
                os.remove(self.at("built", name))
        put(self.at("crates.txt"), "argus_prog:\ncells_prog:\n")
        put(self.at("HANDLES"), "Handles allowed: none.\n")
        for name in ("argus", "cells"):
            put(self.at("crates", name + "_prog", "src", "main.rt"), "// %s\n" % name)
            put(self.at("crates", name + "_prog", "specs", "Lib.antt"), "-- %s\n" % name)
            put(self.at("crates", name + "_prog", "proofs", "+main", "Of.antt"), "-- a proof\n")
            put_command(self.made(name), made_program(name))
        self.put_tools()
        self.work = os.path.join(folder, "work")
        os.mkdir(self.work)

    def put_tools(self) -> None:
        """The two folders of the path: one of commands, one with rt."""
        self.tools = os.path.join(self.folder, "tools")
        os.mkdir(self.tools)
        for name in TOOLS:
            found = shutil.which(name)
            if found:
                os.symlink(found, os.path.join(self.tools, name))
        os.symlink(PYTHON, os.path.join(self.tools, "python3"))
        self.kit = os.path.join(self.folder, "kit")
        self.log = os.path.join(self.folder, "rt.log")
        made = os.path.join(self.folder, "made")
        words = {"log": self.log, "logic": LOGIC, "made": made, "folder": self.folder}
        put_command(os.path.join(self.kit, "rt"), RT % words)

    def at(self, *parts: str) -> str:
        """A path in the repository."""
        return os.path.join(self.top, *parts)

    def made(self, name: str) -> str:
        """The program that a crate is said to build."""
        return os.path.join(self.folder, "made", name)

    def main(self) -> str:
        """A source of the program argus."""
        return self.at("crates", "argus_prog", "src", "main.rt")

    def environment(self, has_rt: bool = False, **more: Any) -> Dict[str, str]:
        """The environment of a call, with or without rt on the path."""
        path = (self.kit + ":" if has_rt else "") + self.tools
        return {"PATH": path, "HOME": self.folder, "TMPDIR": self.folder, **more}

    def ask(self, *words: str, has_rt: bool = False, text: str = "", **more: Any) -> Answer:
        """What the launcher answers."""
        env = self.environment(has_rt, **more)
        return call([self.at("argus"), *words], self.work, env, text)

    def make(self) -> Answer:
        """Packs the two programs."""
        made = [self.made(it) for it in ("argus", "cells")]
        return call([self.at("built", "make"), "--from", *made], self.work, self.environment())

    def ready(self) -> "Tree":
        """The repository once its launcher has been called."""
        self.make()
        self.ask("run", "0")
        return self

    def built(self, script: str, has_rt: bool = False) -> Answer:
        """What a script of built/ answers."""
        return call([self.at("built", script)], self.work, self.environment(has_rt))

    def asked_of_rt(self) -> List[str]:
        """What rt was called with since this was last asked."""
        found = read(self.log).split("\n")[:-1] if os.path.exists(self.log) else []
        if found:
            os.remove(self.log)
        return found

    def leave(self, change: str = "") -> None:
        """Has the crates hold what a gate leaves."""
        for name in ("argus", "cells"):
            out = self.at("crates", name + "_prog", "out", name + "_prog")
            put_command(out, read(self.made(name)) + change)

    def damage(self) -> None:
        """Changes a byte of the packed program argus."""
        with open(self.at("built", "argus-x86_64-linux.gz"), "r+b") as file:
            file.seek(40)
            part = file.read(1)
            file.seek(40)
            file.write(bytes([part[0] ^ 1]))

    def left(self) -> List[str]:
        """What is left among the temporary files."""
        return sorted(it for it in os.listdir(self.folder) if it.startswith("tmp"))

    def at_terminal(self, *words: str, **more: Any) -> Answer:
        """What the launcher answers whose standard output is a pipe, and standard error a terminal.
        """
        ours, its = pty.openpty()
        ran = subprocess.Popen(
            [self.at("argus"), *words], cwd=self.work, env=self.environment(**more),
            stdin=subprocess.DEVNULL, stdout=subprocess.PIPE, stderr=its
        )
        os.close(its)
        said = b"".join(iter(lambda: part_of(ours), b""))
        out = ran.communicate()[0]
        os.close(ours)
        err = said.decode("latin-1").replace("\r\n", "\n")
        return Answer(ran.returncode, out.decode("latin-1"), err)


def part_of(terminal: int) -> bytes:
    """What comes next from a terminal; nothing where its other end is closed."""
    try:
        return os.read(terminal, 4096) if select.select([terminal], [], [], 20)[0] else b""
    except OSError:
        return b""


def change(path: str, text: str = "// changed\n") -> None:
    """Adds a line to a file."""
    put(path, read(path) + text)


def sum_by_hand(top: str) -> str:
    """The checksum of the sources, by its description in built/README.md."""
    lines = [LOGIC]
    paths = [os.path.join(at, name) for at, _, names in os.walk(top) for name in names]
    for path in paths:
        name = os.path.relpath(path, top)
        if re.match(r"crates/[^/]+/(src|specs|proofs)/", name) or name in ("crates.txt", "HANDLES"):
            with open(path, "rb") as file:
                lines.append("%s  %s" % (hashlib.sha256(file.read()).hexdigest(), name))
    text = "".join(line + "\n" for line in sorted(lines))
    return hashlib.sha256(text.encode()).hexdigest()
