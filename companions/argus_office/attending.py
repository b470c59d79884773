"""A run of a program at a terminal: its answer is held until the end, how long it takes is said
from the sixth second on, and what explain makes of the answer comes behind it on standard error.

The answer's bytes and the status are the program's. A signal that ends this ends the program first.
"""

import os
import shutil
import signal
import subprocess
import sys
import tempfile
import time
from types import FrameType
from typing import IO, List, NoReturn, Optional

from argus_office.coarser import said_of

MAIN = os.path.join(os.path.dirname(os.path.realpath(__file__)), "__main__.py")
# After how many seconds a run is a long one.
LONG = 5
# After how many seconds without an answer a coarser job is named.
WITHOUT_ANSWER = 60
SIGNALS = (signal.SIGINT, signal.SIGTERM, signal.SIGHUP)


def length(seconds: float) -> str:
    """A time in minutes and seconds."""
    return "%d:%02d" % divmod(int(seconds), 60)


def is_terminal(stream: Optional[IO[str]]) -> bool:
    """Whether somebody reads what is said there."""
    try:
        return stream is not None and stream.isatty()
    except ValueError:
        return False


class Ended(BaseException):
    """A signal came that ends this."""


class Attendance:
    """One run of a program, from its beginning to its end."""

    def __init__(self, name: str, words: List[str]) -> None:
        """`name` is argus or cells; only what argus says is held, and explained."""
        self.name = name
        self.words = words
        self.begun = time.monotonic()
        self.is_told = is_terminal(sys.stderr)
        self.answer = held_file() if name == "argus" else None
        self.is_advised = name != "argus" or words[:1] != ["run"] or len(words) != 2
        self.is_ticking = self.is_told and (self.answer is not None or not is_terminal(sys.stdout))
        self.child: Optional["subprocess.Popen[bytes]"] = None
        # The signal that ends this, where one came.
        self.number = 0

    def took(self) -> float:
        """For how many seconds it has run."""
        return time.monotonic() - self.begun

    def say(self, text: str) -> None:
        """Says something on standard error, where somebody is."""
        if self.is_told:
            try:
                sys.stderr.write(text)
                sys.stderr.flush()
            except OSError:
                self.is_told = False

    def run(self, program: str) -> int:
        """Runs the program to its end, and gives its status as a shell does.

        A signal that comes meanwhile ends the program and this process. One that is ignored, as by
        nohup, stays so; one that comes later breaks off no more than the explanation.
        """
        heard = [it for it in SIGNALS if signal.getsignal(it) != signal.SIG_IGN]
        for number in heard:
            signal.signal(number, self.note)
        try:
            self.child = subprocess.Popen([program, *self.words], stdout=self.answer)
            if self.number:
                raise Ended
            status = self.wait(self.child)
            for number in heard:
                signal.signal(number, lambda _number, _frame: None)
            return status
        except Ended:
            self.end()

    def note(self, number: int, _frame: Optional[FrameType]) -> None:
        """Takes a signal. (While the program is being begun, it waits until that is done.)"""
        self.number = number
        if self.child is not None:
            raise Ended

    def wait(self, child: "subprocess.Popen[bytes]") -> int:
        """Waits for the program's end, and says how long it takes."""
        while True:
            try:
                status = child.wait(1 if self.is_ticking else None)
                return 128 - status if status < 0 else status
            except subprocess.TimeoutExpired:
                self.advise()
                if self.took() >= LONG:
                    line = "%s: running for %s (minutes:seconds)" % (self.name, length(self.took()))
                    self.say("\r\033[K%s\r" % line)

    def advise(self) -> None:
        """Names a coarser job, once, where there is no answer for long."""
        if not self.is_advised and self.took() >= WITHOUT_ANSWER:
            self.is_advised = True
            line = said_of(self.words[1])
            self.say("\r\033[K%s\n" % line if line else "")

    def end_ticks(self) -> None:
        """Takes back the line that says how long it takes."""
        if self.is_ticking and self.took() >= LONG:
            self.say("\r\033[K")

    def end(self) -> NoReturn:
        """Ends the program, and then this process by the signal that came."""
        for each in SIGNALS:
            signal.signal(each, signal.SIG_IGN)
        if self.child is not None:
            self.child.terminate()
            self.child.wait()
        self.end_ticks()
        signal.signal(self.number, signal.SIG_DFL)
        os.kill(os.getpid(), self.number)
        raise SystemExit(128 + self.number)

    def tell(self, status: int, is_explained: bool) -> None:
        """The answer as it is, then what explain makes of it, then how long a long run took."""
        took = self.took()
        self.end_ticks()
        if self.answer is not None:
            self.answer.seek(0)
            put_out(self.answer)
            # A release is looked at for what its office may not have meant.
            is_odd = status in (2, 3, 4) or (status == 0 and self.words[:1] == ["run"])
            if is_explained and is_odd and os.fstat(self.answer.fileno()).st_size:
                self.answer.seek(0)
                command = [sys.executable, "-I", "-B", MAIN, "explain", *self.words]
                subprocess.run(command, stdin=self.answer, stdout=standard_error(), check=False)
        if took > LONG:
            self.say("%s: took %s (minutes:seconds)\n" % (self.name, length(took)))


def held_file() -> Optional[IO[bytes]]:
    """A file that holds an answer, where one can be made; it goes with this process."""
    try:
        return tempfile.TemporaryFile()
    except OSError:
        return None


def standard_error() -> Optional[int]:
    """Where explanations go."""
    return 2 if sys.stderr is not None else subprocess.DEVNULL


def put_out(answer: IO[bytes]) -> None:
    """Writes an answer to standard output, where that takes it."""
    try:
        if sys.stdout is not None:
            shutil.copyfileobj(answer, sys.stdout.buffer)
            sys.stdout.flush()
    except OSError:
        sys.stdout = open(os.devnull, "w", encoding="utf-8")


def attend(name: str, program: str, words: List[str]) -> int:
    """Runs the program argus or cells with these words, and gives its status.

    Where the program can't be run, one line says so, and the status is 125.
    """
    attendance = Attendance(name, words)
    try:
        status = attendance.run(program)
    except OSError as fault:
        print("%s: %s: %s" % (name, program, fault.strerror or fault), file=sys.stderr)
        return 125
    asked = os.environ.get("ARGUS_EXPLAIN")
    attendance.tell(status, asked != "0" and (attendance.is_told or asked == "1"))
    return status
