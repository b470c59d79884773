"""Microdata: records, numbered from 1, and their fields. A line with at least one byte is a record.
"""

from typing import Dict, Iterator, NamedTuple, Optional

from argus_office.reading.files import BLANKS, Unread, content, grouped, lines_of, shown_name
from argus_office.reading.job import Job, Names, names_of
from argus_office.reading.metadata import Variable


class Record(NamedTuple):
    """A record: its line in the file and its number, both from 1, and its bytes."""

    line: int
    number: int
    raw: bytes


def records_of(data: bytes) -> Iterator[Record]:
    """The records of a file."""
    number = 0
    for k, raw in enumerate(lines_of(data)):
        if raw:
            number += 1
            yield Record(k + 1, number, raw)


def units_of(text: bytes, decimals: int) -> Optional[int]:
    """The number of units of a value, or nothing where it is none."""
    whole, point, part = text.partition(b".")
    if len(part) > decimals or not (whole or part) or not all(48 <= it <= 57
                                                              for it in whole + part):
        return None
    return int(whole + part.ljust(decimals, b"0"))


class Units:
    """The numbers of a variable in records, in units; each text is looked at once."""
    def __init__(self, variable: Variable) -> None:
        self.cut, self.decimals = variable.cut(), variable.decimals()
        self.known: Dict[bytes, Optional[int]] = {}

    def of(self, record: bytes) -> Optional[int]:
        """The units in a record; nothing where there is no number."""
        field = record[self.cut]
        if field not in self.known:
            self.known[field] = units_of(field.strip(BLANKS), self.decimals)
        return self.known[field]


def is_skipped(raw: bytes, response: Variable) -> bool:
    """Whether a record has no response, so that argus skips it."""
    text = response.field(raw).strip(BLANKS)
    return not text or text in response.missing


class Microdata:
    """The microdata of a job with what is needed to read a record."""
    def __init__(self, job: Job):
        name = job.file("OPENMICRODATA")
        if name is None:
            raise Unread(job.name, "it has no line <OPENMICRODATA> with the name of the microdata")
        self.job, self.name, self.metadata = job, name, job.metadata()
        self.names: Names = names_of(job, self.metadata)
        self.data = content(name)
        self.records = list(records_of(self.data))

    def of_number(self, number: int) -> Optional[Record]:
        """The record of a number, from 1, where there is one."""
        return self.records[number - 1] if 0 < number <= len(self.records) else None

    def rows(self) -> Iterator[Record]:
        """The records that aren't skipped."""
        response = self.names.response
        return (it for it in self.records
                if response is not None and not is_skipped(it.raw, response))

    def place(self, record: Record) -> str:
        """A record in words: its file and line."""
        also = ""
        if record.line != record.number:
            also = " (record %s: lines without a byte don't count)" % grouped(record.number)
        return "%s, line %d%s" % (shown_name(self.name), record.line, also)
