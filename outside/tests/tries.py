"""What the tries have in common: the checker's answer to a job beside the one that is wanted."""
import os
import shutil
import subprocess
import sys
import tempfile
import time
from typing import Dict, List, Optional

TOP = os.path.dirname(os.path.dirname(os.path.dirname(os.path.abspath(__file__))))
sys.dont_write_bytecode = True
sys.path.insert(0, os.path.join(TOP, "outside"))

from argus_outside.judgement import check  # noqa: E402
from argus_outside.texts import NotAccepted, Unreadable  # noqa: E402

EXAMPLES = os.path.join(TOP, "examples")
CHECK = os.path.join(TOP, "outside", "check")


def unpacked() -> str:
    """The repository's own program, which its launcher brings where it is due."""
    launcher = os.path.join(TOP, "argus")
    subprocess.run([launcher], stdout=subprocess.DEVNULL, check=False)
    program = os.path.join(TOP, "out", "argus")
    return program if os.path.exists(program) else launcher


class Tries:
    """Counts what was tried and says what differs."""
    def __init__(self, program: str) -> None:
        self.program, self.tried, self.differ, self.kinds = program, 0, 0, {
        }  # type: str, int, int, Dict[str, int]
        self.slowest = 0.0  # seconds of processor time that the checker took for one job

    def count(self, kind: str) -> None:
        """One more of a kind of answers."""
        self.kinds[kind] = self.kinds.get(kind, 0) + 1

    def argus(self, words: List[str], folder: bytes, seconds: int = 60) -> str:
        """What argus says, without the end of its line; `undecided` where it takes longer than so
        many seconds.
        """
        try:
            done = subprocess.run([self.program] + words,
                                  cwd=folder,
                                  stdout=subprocess.PIPE,
                                  stderr=subprocess.PIPE,
                                  timeout=seconds)
        except subprocess.TimeoutExpired:
            return "undecided"
        return done.stdout.decode("utf-8", "replace").rstrip("\n")

    def compare(self,
                about: str,
                folder: bytes,
                job: bytes,
                expected: Optional[str] = None) -> None:
        """The checker's answer to a job against the expected one, or argus's."""
        expected = self.argus(["check", os.fsdecode(job)], folder) if expected is None else expected
        home = os.getcwd()
        os.chdir(folder)
        words, begun = "", time.process_time()
        try:
            words = check(job)
            found = "accepted"
        except (NotAccepted, Unreadable) as fault:
            found, words = fault.report, str(fault)
        except Exception as fault:  # a fault of the checker itself: that is what a try looks for
            found = "%s: %s" % (type(fault).__name__, fault)
        finally:
            os.chdir(home)
        seconds = time.process_time() - begun
        self.slowest = max(self.slowest, seconds)
        self.tried += 1
        self.count(" ".join(expected.split(" ")[:3 if expected.startswith("not") else 1]))
        if found != expected:
            self.differ += 1
            print("%s: expected %r, the checker says %r: %s" % (about, expected, found, words))

    def both(self, about: str, folder: bytes, job: bytes, expected: str) -> None:
        """The checker's answer, and argus's, against one that was worked out by hand."""
        self.compare(about, folder, job, expected)
        said = self.argus(["check", os.fsdecode(job)], folder)
        if said != expected:
            self.differ += 1
            print("%s: expected %r, argus says %r" % (about, expected, said))


def lay(files: Dict[str, bytes], folder: bytes) -> None:
    """Writes files into a folder."""
    for name, data in files.items():
        write(folder, name, data)


def write(folder: bytes, name: str, data: bytes) -> None:
    with open(os.path.join(folder, name.encode("latin-1")), "wb") as file:
        file.write(data)


def read(folder: bytes, name: str) -> bytes:
    with open(os.path.join(folder, name.encode("latin-1")), "rb") as file:
        return file.read()


def new_folder(room: str, source: Optional[str] = None) -> bytes:
    """A new folder, perhaps with a copy of an example."""
    folder = tempfile.mkdtemp(dir=room)
    if source:
        shutil.rmtree(folder)
        shutil.copytree(source, folder)
    return os.fsencode(folder)


def try_release(tries: Tries, about: str, folder: bytes, job: str, seconds: int = 60) -> str:
    """Runs a job.

    A release must be accepted; a refusal must be the checker's too; of others nothing is tried.
    """
    said = tries.argus(["run", job], folder, seconds)
    if said.startswith("released"):
        tries.compare(about, folder, job.encode(), "accepted")
    elif said.startswith("refused"):
        tries.compare(about, folder, job.encode(), said)
    return said
