"""A job: its lines with what they say, as far as they can be made out (docs/MANUAL.md, the table of
commands)."""

import re
from typing import List, NamedTuple, Optional, Tuple

from argus_office.reading.arguments import (COMMANDS, Depth, MOST_LEVEL, Method, Output, Prior,
                                            Rule, Scanner, Table, Wrong)
from argus_office.reading.files import BLANKS, Unread, content, lines_of, shown_name
from argus_office.reading.metadata import Metadata, Variable


class Line(NamedTuple):
    """A line of a job: number, bytes, the word between < and > (None where there is none), and
    where its argument begins."""

    number: int
    raw: bytes
    word: Optional[str]
    at: int

    def is_passed_over(self) -> bool:
        """Whether the line is empty or a comment."""
        text = self.raw.strip(BLANKS)
        return not text or text.startswith(b"//")


def read_line(number: int, raw: bytes) -> Line:
    """A line of a job."""
    start = len(raw) - len(raw.lstrip(BLANKS))
    end = raw.find(b">", start)
    if raw[start:start + 1] != b"<" or end <= start + 1:
        return Line(number, raw, None, start)
    return Line(number, raw, raw[start + 1:end].decode("latin-1").upper(), end + 1)


class Job:
    """What a job's lines say, as far as they can be made out: for each command its lines with what
    they say."""
    def __init__(self, name: bytes):
        self.name = name
        self.data = content(name)
        self.lines = [read_line(k + 1, raw) for k, raw in enumerate(lines_of(self.data))]
        self.said: List[Tuple[Line, object]] = []
        for line in self.lines:
            if line.word in COMMANDS and not line.is_passed_over():
                self.said.append((line, value_of(line)))

    def of(self, command: str) -> List[Tuple[Line, object]]:
        """The lines of a command, each with what it says."""
        return [it for it in self.said if it[0].word == command]

    def argument(self, command: str) -> Optional[bytes]:
        """What stands behind a command, as it stands; nothing where no line has it."""
        for line, _ in self.of(command):
            return line.raw[line.at:].strip(BLANKS)
        return None

    def file(self, command: str) -> Optional[bytes]:
        """The file that a command names, if one does."""
        return next((it for _, it in self.of(command) if isinstance(it, bytes)), None)

    def tables(self) -> List[Tuple[Line, Table]]:
        """The tables, each with its line."""
        return [(line, it) for line, it in self.of("SPECIFYTABLE") if isinstance(it, Table)]

    def rules(self) -> List[Rule]:
        """The rules of the line SAFETYRULE."""
        return next((it for _, it in self.of("SAFETYRULE") if isinstance(it, list)), [])

    def is_weighted(self) -> bool:
        """Whether the values are weighted."""
        return any(it.word == "WGT" and it.numbers == [1] for it in self.rules())

    def priors(self) -> List[Tuple[Line, Prior]]:
        """The a priori files, each with its line."""
        return [(line, it) for line, it in self.of("APRIORI") if isinstance(it, Prior)]

    def outputs(self) -> List[Tuple[Line, Output]]:
        """The files of the tables, each with its line."""
        return [(line, it) for line, it in self.of("WRITETABLE") if isinstance(it, Output)]

    def depths(self) -> List[Tuple[Line, Depth]]:
        """The lines DEPTH with what they say."""
        return [(line, it) for line, it in self.of("DEPTH") if isinstance(it, Depth)]

    def depth_at(self, table: int, variable: bytes) -> Optional[Tuple[Line, Depth]]:
        """The line that says down to which level a table, from 1, shows the codes of a variable,
        where there is one."""
        return next(
            (one for one in self.depths() if (one[1].table, one[1].variable) == (table, variable)),
            None)

    def level(self, table: int, variable: bytes) -> int:
        """The last level that a table, from 1, shows; where it shows all, the deepest that a tree
        can have."""
        found = self.depth_at(table, variable)
        return found[1].level if found else MOST_LEVEL

    def method(self) -> Method:
        """The method; in one pass where the job has none that can be read."""
        return next((it for _, it in self.of("SUPPRESS") if isinstance(it, Method)),
                    Method("MOD", 1))

    def limit(self, command: str, default: int) -> Tuple[int, Optional[int]]:
        """The number of STEPS or NODES, and the line that gives it, if one does."""
        for line, it in self.of(command):
            if isinstance(it, int):
                return it, line.number
        return default, None

    def metadata(self) -> Metadata:
        """The metadata that the job names. Raises Unread where they can't be read."""
        name = self.file("OPENMETADATA")
        if name is None:
            raise Unread(self.name, "it has no line <OPENMETADATA> with the name of the metadata")
        return Metadata(name)

    def line(self, number: int) -> Optional[Line]:
        """The line of a number, from 1, where there is one."""
        return self.lines[number - 1] if 0 < number <= len(self.lines) else None

    def place(self, line: int) -> str:
        """A line of the job in words."""
        return "%s, line %d" % (shown_name(self.name), line)


def value_of(line: Line) -> object:
    """What the argument says; where it has a fault, the name between its first quotes, or nothing.
    """
    try:
        return COMMANDS[line.word or ""][1](Scanner(line.raw, line.at))
    except Wrong:
        found = re.findall(rb'"([^"]*)"', line.raw[line.at:])
        return found[0] if found and line.word in ("OPENMICRODATA", "OPENMETADATA") else None


class Names(NamedTuple):
    """The variables that a job uses, in the metadata: those that span its tables in the order of
    the metadata, response and weight."""

    spanning: List[Variable]
    response: Optional[Variable]
    weight: Optional[Variable]

    def used(self) -> List[Variable]:
        """All of these variables."""
        return self.spanning + [it for it in (self.response, self.weight) if it is not None]

    def needed(self) -> int:
        """The last byte of a record that a field of these has."""
        return max([it.last() for it in self.used() if it.is_clear()], default=0)


def names_of(job: Job, metadata: Metadata) -> Names:
    """The variables of the metadata that a job uses."""
    wanted = {name for _, table in job.tables() for name in table.variables}
    tables = job.tables()
    response = metadata.find(tables[0][1].response) if tables else None
    return Names([it for it in metadata.variables if it.name in wanted], response,
                 metadata.weight() if job.is_weighted() else None)


def written(job: Job) -> List[Tuple[Line, bytes]]:
    """The files that the job's lines write."""
    found = [(line, it.file) for line, it in job.outputs()]
    return found + [(line, it) for word in ("CERTIFICATE", "CONTRIBUTORS")
                    for line, it in job.of(word) if isinstance(it, bytes)]


def inputs(job: Job) -> List[bytes]:
    """The files that a job names to be read: microdata, metadata and a priori files."""
    named = (job.file("OPENMICRODATA"), job.file("OPENMETADATA"))
    return [it for it in named if it is not None] + [it.file for _, it in job.priors()]


def outputs(job: Job) -> List[bytes]:
    """The files that a job names to be written, in the order of its lines."""
    return [name for line, name in sorted(written(job), key=lambda it: it[0].number)]
