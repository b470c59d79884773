"""Where the programs argus and cells are, and how they are asked. None of them is ever built for a
companion.

A clone has the launcher `argus` at its top, which takes the word `cells` too; an installed package
has both programs inside; and a path, or the environment variable ARGUS, may say another argus: a
launcher, or a built program with a built cells beside it.
"""

import hashlib
import os
import shutil
import subprocess
import sys
from typing import List, NamedTuple, Optional

HERE = os.path.dirname(os.path.realpath(__file__))
# The top of a clone, and the folder of the programs of an installed package.
CLONE = os.path.dirname(os.path.dirname(HERE))
INSIDE = os.path.join(HERE, "built")
# The status of a launcher whose program isn't there.
NOT_BUILT = 125
# The first bytes of a script. A launcher is one, and a built program isn't.
SCRIPT = b"#!"


class ProgramFault(Exception):
    """A program that can't be asked, in one line: it isn't there, isn't built, or was ended."""


class Said(NamedTuple):
    """What a program said: its status, and the texts of both outputs, in UTF-8. Bytes that are none
    stay as os.fsencode takes them back.
    """

    status: int
    out: str
    err: str


def said_by(words: List[str], folder: Optional[str] = None, is_heard: bool = False) -> Said:
    """What a command says in a folder (without one, the current one). It builds nothing and
    explains nothing. Where it is heard, its standard error goes to ours instead of into the answer.

    Raises ProgramFault where the command can't be begun, or was ended by a signal.
    """
    told = dict(os.environ, ARGUS_BUILD="0", ARGUS_EXPLAIN="0")
    errors = None if is_heard else subprocess.PIPE
    try:
        done = subprocess.run(
            words, cwd=folder, stdin=subprocess.DEVNULL, stdout=subprocess.PIPE, stderr=errors,
            check=False, env=told,
        )
    except (OSError, ValueError) as fault:
        raise ProgramFault(why_not(words[0], folder, fault)) from fault
    if done.returncode < 0:
        name = os.path.basename(words[0])
        raise ProgramFault("the program %s was ended by signal %d" % (name, -done.returncode))
    out = done.stdout.decode("utf-8", "surrogateescape")
    return Said(done.returncode, out, (done.stderr or b"").decode("utf-8", "surrogateescape"))


def why_not(program: str, folder: Optional[str], fault: Exception) -> str:
    """Why a command couldn't be begun, in one line."""
    if folder is not None and not os.path.isdir(folder):
        return "%s: there is no such folder" % folder
    return "%s: %s" % (program, getattr(fault, "strerror", None) or fault)


def placed(name: str) -> str:
    """The full path of a program; a bare name that isn't in this folder is one of the path."""
    is_here = os.path.dirname(name) or os.path.exists(name)
    return os.path.abspath(name if is_here else shutil.which(name) or name)


def is_script(path: str) -> bool:
    """Whether a program is a script; one that can't be read isn't."""
    try:
        with open(path, "rb") as file:
            return file.read(len(SCRIPT)) == SCRIPT
    except OSError:
        return False


class Programs:
    """The programs argus and cells: those of a path, of the environment, of a clone, or of the
    package.
    """

    def __init__(self, argus: Optional[str] = None, cells: Optional[str] = None) -> None:
        """`argus` is the path of a built argus, with a built cells beside it, or of a launcher;
        `cells` is that of a cells which lies elsewhere.
        """
        given = argus or os.environ.get("ARGUS")
        if given:
            self.argus = placed(given)
        elif os.path.exists(os.path.join(CLONE, "built", "launch.sh")):
            self.argus = os.path.join(CLONE, "argus")
        else:
            self.argus = os.path.join(INSIDE, "argus")
        self._cells = placed(cells) if cells else ""

    def ask(self, *words: str, folder: Optional[str] = None, is_heard: bool = False) -> Said:
        """What argus says to these words. Raises ProgramFault where it isn't there."""
        return self._answer([self.argus, *words], "argus", folder, is_heard)

    def cells(self, *words: str, folder: Optional[str] = None, is_heard: bool = False) -> Said:
        """What cells says to these words. Raises ProgramFault where it isn't there."""
        return self._answer([*self.cells_words(), *words], "cells", folder, is_heard)

    def cells_words(self) -> List[str]:
        """The words that call cells. Raises ProgramFault where there is none beside argus."""
        if self._cells:
            return [self._cells]
        beside = os.path.join(os.path.dirname(self.argus), "cells")
        if not self.is_launcher() and os.path.exists(beside):
            return [beside]
        if is_script(self.argus):
            return [self.argus, "cells"]
        raise ProgramFault("there is no program cells beside argus")

    def is_launcher(self) -> bool:
        """Whether argus is a clone's launcher, which takes all words."""
        return os.path.exists(os.path.join(self._top(), "built", "launch.sh"))

    def checksum(self) -> str:
        """The SHA-256 of argus itself, of a clone's launcher that of the program it unpacked.

        Raises ProgramFault where it can't be read.
        """
        path = os.path.join(self._top(), "out", "argus") if self.is_launcher() else self.argus
        try:
            with open(path, "rb") as file:
                return hashlib.sha256(file.read()).hexdigest()
        except OSError as fault:
            raise ProgramFault("%s: %s" % (path, fault.strerror)) from fault

    def _top(self) -> str:
        return os.path.dirname(os.path.realpath(self.argus))

    def _answer(self, words: List[str], name: str, folder: Optional[str], is_heard: bool) -> Said:
        said = said_by(words, folder, is_heard)
        if said.status == NOT_BUILT:
            raise ProgramFault(
                "the program %s isn't built, and no companion begins a build: call %s by itself "
                "first" % (name, words[0])
            )
        return said


def companion(word: str, *words: str, folder: Optional[str] = None) -> Said:
    """What a companion (start, explain, page, ..) says to these words, called as a program of its
    own.
    """
    main = os.path.join(HERE, "__main__.py")
    return said_by([sys.executable or "python3", "-I", "-B", main, word, *words], folder)
