"""What the tests of `argus explain` have in common: what it says of an answer, argus asked, and
folders of their own."""

import os
import re
import shutil
import subprocess
import tempfile
from types import TracebackType
from typing import Dict, List, NamedTuple, Optional, Sequence, Tuple, Type

from support import TOP, put
from argus_office.explaining import answers

JOBS = os.path.join(TOP, "companions", "tests", "explain_jobs")
EXAMPLES = os.path.join(TOP, "examples")
DOUBT = re.compile(r"it\.job: (\S+) and (\S+) overlap: ")


class Explained(NamedTuple):
    """What explain says: its lines, the rows for a priori files, and both as they are stored."""

    lines: List[str]
    rows: List[str]
    text: str


def explained(words: Sequence[str], answer: str) -> Explained:
    """What explain says of an answer to these words. The folder's own name is left out."""
    asked = answers.asked_of(list(words), answer)
    assert asked is not None, words
    said = answers.explained(asked)
    here = "(%s)" % os.getcwd()
    lines = ["  " + it.replace(here, "(FOLDER)") for it in said.lines]
    return Explained(said.lines, said.rows(), "".join(it + "\n" for it in lines + said.rows()))


class Room:
    """A folder of its own as the current one, with the files of another, or with some files."""

    def __init__(
        self, source: str = "", files: Optional[Dict[str, Optional[bytes]]] = None
    ) -> None:
        self.source, self.files = source, files or {}

    def __enter__(self) -> "Room":
        self.old, self.folder = os.getcwd(), os.path.realpath(tempfile.mkdtemp())
        for name in os.listdir(self.source) if self.source else []:
            shutil.copy(os.path.join(self.source, name), self.folder)
        os.chdir(self.folder)
        for name, data in self.files.items():
            if data is not None:
                put(name, data)
        return self

    def __exit__(
        self, kind: Optional[Type[BaseException]], fault: Optional[BaseException],
        trace: Optional[TracebackType]
    ) -> None:
        os.chdir(self.old)
        shutil.rmtree(self.folder)


def asked(program: str, words: Sequence[str]) -> Tuple[int, str]:
    """The status and the answer of argus."""
    done = subprocess.run(
        [program, *words], stdin=subprocess.DEVNULL, stdout=subprocess.PIPE,
        stderr=subprocess.DEVNULL, check=False, timeout=120
    )
    return done.returncode, done.stdout.decode("utf-8", "surrogateescape")


def text_in(name: str) -> str:
    """A file in UTF-8."""
    with open(name, encoding="utf-8") as file:
        return file.read()
