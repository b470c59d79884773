"""What the tests have in common: a folder for each test, checks that are counted, and commands that
are called.

A check that fails is a failure of its own, with what it was about, and the test goes on behind it.
"""

import atexit
import os
import shutil
import subprocess
import sys
import tempfile
import unittest
from typing import Any, Dict, List, NamedTuple, Optional, Sequence, Union

TOP = os.path.dirname(os.path.dirname(os.path.dirname(os.path.realpath(__file__))))
COMPANIONS = os.path.join(TOP, "companions")
ARGUS = os.path.join(TOP, "argus")
if COMPANIONS not in sys.path:
    sys.path.insert(0, COMPANIONS)
sys.dont_write_bytecode = True


class Answer(NamedTuple):
    """The status, the standard output and the standard error of a command; a byte is a letter."""

    status: int
    out: str
    err: str


class Count:
    """How many checks were made in this process."""

    checks = 0

    @classmethod
    def tell(cls) -> None:
        """Says it behind the last test, for `companions/try`."""
        print("%d checks" % cls.checks, flush=True)


atexit.register(Count.tell)


class Case(unittest.TestCase):
    """Tests, each in an empty folder of its own, which is the current one."""

    def setUp(self) -> None:
        self.folder = os.path.realpath(tempfile.mkdtemp(prefix="argus-test-"))
        self.addCleanup(shutil.rmtree, self.folder, True)
        self.addCleanup(os.chdir, os.getcwd())
        os.chdir(self.folder)

    def wants(self, is_so: bool, what: str) -> bool:
        """Checks that something is so, and says whether it is."""
        Count.checks += 1
        with self.subTest(what):
            self.assertTrue(is_so)
        return is_so

    def same(self, found: Any, wanted: Any, what: str) -> None:
        """Checks that what was found is what was wanted."""
        Count.checks += 1
        with self.subTest(what):
            self.assertEqual(found, wanted)


def put(path: str, text: Union[str, bytes], encoding: str = "latin-1") -> str:
    """Writes a file, with its folders, and gives its path."""
    os.makedirs(os.path.dirname(os.path.abspath(path)), exist_ok=True)
    raw = text if isinstance(text, bytes) else text.encode(encoding)
    with open(path, "wb") as file:
        file.write(raw)
    return path


def put_command(path: str, text: str) -> str:
    """Writes a file that can be run."""
    put(path, text)
    os.chmod(path, 0o755)
    return path


def content(path: str) -> bytes:
    """The bytes of a file."""
    with open(path, "rb") as file:
        return file.read()


def read(path: str) -> str:
    """A file, each byte as a letter of Latin-1."""
    return content(path).decode("latin-1")


def call(
    words: Sequence[Union[str, bytes]],
    folder: str,
    env: Optional[Dict[str, str]] = None,
    text: str = ""
) -> Answer:
    """What a command answers in a folder."""
    done = subprocess.run(
        list(words), cwd=folder, env=env, input=text.encode("latin-1"), capture_output=True,
        check=False
    )
    return Answer(done.returncode, done.stdout.decode("latin-1"), done.stderr.decode("latin-1"))


def environment(**more: str) -> Dict[str, str]:
    """The environment for this checkout's programs: none is built, and nothing explained."""
    return {**os.environ, "ARGUS_BUILD": "0", "ARGUS_EXPLAIN": "0", **more}


def ask(*words: str, folder: str = ".", **more: str) -> Answer:
    """What this checkout's argus, or one of its companions, answers."""
    return call([ARGUS, *words], folder, environment(**more))


def program(name: str) -> str:
    """The built program argus or cells, which the launcher brings."""
    call([ARGUS, "--version"] if name == "argus" else [ARGUS, "cells"], "/", environment())
    call([ARGUS], "/", environment())
    return os.path.join(TOP, "out", name)


def example(name: str, *names: str) -> List[str]:
    """Copies an example, or some of its files, into the current folder, and gives their names."""
    folder = os.path.join(TOP, "examples", name)
    taken = names or tuple(sorted(os.listdir(folder)))
    for it in taken:
        shutil.copy2(os.path.join(folder, it), it)
    return list(taken)
