"""What can go wrong, each with argus's answer, the file and line where there is one, and what to
do."""

import contextlib
import re
from typing import Iterator, List, NoReturn, Optional, Sequence, Tuple, Type

from argus_office.programs import ProgramFault, Said, companion

# A file and a line, as in "firms.asc, line 3: ..".
PLACE = re.compile(r"\A([^:,]{1,200}), line ([0-9]{1,12})")
# start's words on a number with too many decimals, and what a caller of this package can do.
DECIMALS = re.compile(r", column (.{1,200}): .{1,100} decimals, and argus takes ([0-9]{1,2})\.")
ROUND = 'From Python, round={"%s": %s} rounds the column of a frame, half away from zero.'


class ArgusError(Exception):
    """An answer that isn't what was asked for.

    `answer` is argus's line, `remedy` what explain says of it, `status` that of the program; `file`
    and `line` say where the fault is, and are None where there is no such place.
    """

    def __init__(
        self, answer: str, remedy: Sequence[str] = (), status: Optional[int] = None
    ) -> None:
        super().__init__("\n  ".join([answer, *remedy]))
        self.answer = answer
        self.remedy = list(remedy)
        self.status = status
        self.file, self.line = place_in([*remedy, answer])


class StartRefused(ArgusError):
    """The data or the words can't be taken as they are."""


class JobRefused(ArgusError):
    """An input of argus has a fault."""


class CannotProtect(ArgusError):
    """No set of cells that may be hidden is enough, or no rounding exists."""


class Undecided(ArgusError):
    """A question needed more work, wider numbers or more cells than allowed."""


class NotAccepted(ArgusError):
    """The release isn't one of this job, or its certificate doesn't show that it protects."""


class FileFault(ArgusError):
    """A file couldn't be read or written, or is there already."""


class OutOfMemory(ArgusError):
    """There wasn't enough memory."""


class PageRefused(ArgusError):
    """The page couldn't be made, or isn't made for a release that isn't accepted."""


class ProgramMissing(ArgusError):
    """The program isn't there, isn't built, or was ended."""


BY_STATUS = {2: JobRefused, 4: Undecided, 5: FileFault, 6: FileFault, 7: OutOfMemory}


def place_in(lines: Sequence[str]) -> Tuple[Optional[str], Optional[int]]:
    """The first file and line with which one of some lines begins."""
    for text in lines:
        found = PLACE.search(text)
        if found:
            return found.group(1), int(found.group(2))
    return None, None


def kind_of(status: int, answer: str) -> Type[ArgusError]:
    """The kind of an answer of argus."""
    if status == 3:
        return NotAccepted if answer.startswith(("not accepted", "not guarded")) else CannotProtect
    return BY_STATUS.get(status, ArgusError)


@contextlib.contextmanager
def asking() -> Iterator[None]:
    """Turns the fault of a program that can't be asked into ProgramMissing."""
    try:
        yield
    except ProgramFault as fault:
        raise ProgramMissing(str(fault)) from fault


def explained(job: str, lines: Sequence[str], folder: str) -> List[str]:
    """What explain says of an answer to a job, without the blanks in front."""
    said = companion("explain", job, *lines, folder=folder)
    return [it[2:] if it.startswith("  ") else it for it in said.out.splitlines()]


def fail(said: Said, job: str, folder: str) -> NoReturn:
    """Raises what an answer of argus, or of cells, to a job is."""
    lines = (said.out or said.err).splitlines() or ["status %d" % said.status]
    remedy = explained(job, lines, folder) if said.status in (2, 3, 4) else lines[1:]
    raise kind_of(said.status, lines[0])(lines[0], remedy, said.status)


def fail_by(kind: Type[ArgusError], said: Said, name: str) -> NoReturn:
    """Raises what a companion refused, whose lines begin with its name."""
    lines = (said.err or said.out).splitlines() or ["status %d" % said.status]
    answer = re.sub(r"\A%s: " % name, "", lines[0])
    decimals = DECIMALS.search(answer)
    advice = [ROUND % decimals.groups()] if decimals else []
    raise kind(answer, lines[1:] + advice, said.status)
