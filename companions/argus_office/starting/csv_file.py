"""The CSV: its separator, the names of its columns, and its records with the lines on which they
begin.

Bytes are read as they are, each as one character of Latin-1, so that codes keep their bytes; the
encoding matters only for what is shown, for names of columns and for marks in numbers.
"""

import csv
import os
from array import array
from typing import Dict, Iterator, List, Optional, Sequence, Set, Tuple

from argus_office.starting.refusals import Refusal, shown

BYTE_ORDER_MARK = "\xef\xbb\xbf"
SEPARATORS = {",": "comma", ";": "semicolon", "\t": "tab"}
# A field has at most so many bytes; a quote that is never closed would make one of the rest of the
# file.
LONGEST_FIELD = 1000000
# argus takes at most so many records.
MOST_RECORDS = 1000000
BLANKS = " \t"

csv.field_size_limit(LONGEST_FIELD)


class Source:
    """A CSV as it stands on disk."""

    def __init__(
        self, path: str, encoding: str, separator: Optional[str], wanted: Sequence[Sequence[str]]
    ) -> None:
        self.path, self.name, self.encoding = path, shown(os.path.basename(path), 80), encoding
        self.marked, self.lead, head = self.look()
        self.separator = separator or self.told_by(head, wanted)
        self.head_line, row = self.header()
        self.names = [self.decoded(it.strip(BLANKS), self.head_line, "") for it in row]
        self.check_names()

    def refuse(
        self, what: str, do: str = "", line: Optional[int] = None, column: str = ""
    ) -> Refusal:
        """A refusal of this file."""
        return Refusal(what, do, self.name, line, column)

    # The front of the file.

    def look(self) -> Tuple[bool, int, str]:
        """Whether a byte order mark is there, whether a line `sep=;` stands before the header (0
        or 1), and the header's text.
        """
        if not os.path.isfile(self.path):
            raise self.refuse(
                "there is no such file" if not os.path.exists(self.path) else "this isn't a file",
                "Give the name of a CSV"
            )
        with open(self.path, encoding="latin-1", newline="") as file:
            front = file.read(1 << 16)
        if front[:2] in ("\xff\xfe", "\xfe\xff") or "\0" in front:
            raise self.refuse(
                "the file is in UTF-16, or isn't text",
                "Save it as CSV in UTF-8, or turn it with: iconv -f UTF-16 -t UTF-8",
                front.count("\n", 0, max(0, front.find("\0"))) + 1
            )
        marked = front.startswith(BYTE_ORDER_MARK)
        front = front[3:] if marked else front
        lead = 1 if front[:4].lower() == "sep=" and front[5:6] in ("\r", "\n") else 0
        if lead:
            self.sep_line = front[4]
            front = front[6:] if front[5:6] == "\n" else front[5:].lstrip("\r\n")
        return marked, lead, first_row(front)

    def told_by(self, head: str, wanted: Sequence[Sequence[str]]) -> str:
        """The separator that the header has outside quotes; of several, the one that gives a name
        of each column that the command has.
        """
        if self.lead:
            return self.sep_line
        outside = "".join(head.split('"')[::2])
        there = [it for it in SEPARATORS if it in outside]
        if len(there) > 1:
            fitting = [
                it for it in there
                if all(self.split(head, it).intersection(names) for names in wanted)
            ]
            there = fitting if len(fitting) == 1 else there
        if len(there) != 1:
            what = "the header has " + " and ".join(SEPARATORS[it] for it in there)
            if not there:
                what += "no comma, semicolon or tab: " + (shown(head) or "it is empty")
            raise self.refuse(
                what, "Say which byte is between columns: --separator ';', --separator tab",
                1 + self.lead
            )
        return there[0]

    def split(self, head: str, separator: str) -> Set[str]:
        """The names of a header with this separator, none where it can't be split so."""
        try:
            row: List[str] = next(csv.reader([head], delimiter=separator), [])
        except csv.Error:
            return set()
        return {self.decoded(it.strip(BLANKS), 1 + self.lead, "") for it in row}

    def header(self) -> Tuple[int, List[str]]:
        """The line of the header, and its fields."""
        for line, row in self.rows(True):
            return line, row
        raise self.refuse(
            "the file has no header", "Its first line has to have the names of the columns", 1
        )

    def check_names(self) -> None:
        """Refuses two columns of one name; a column without a name may be there, and can't be used.
        """
        for k, name in enumerate(self.names):
            first = self.names.index(name)
            if name and first != k:
                raise self.refuse(
                    "columns %d and %d have the same name" % (first + 1, k + 1),
                    "Give one of them another name", self.head_line, shown(name)
                )

    # Rows.

    def text_lines(self) -> Iterator[str]:
        """The lines below a line `sep=`, each with its end, as the module csv takes them."""
        with open(self.path, encoding="latin-1", newline="") as file:
            if self.marked:
                file.read(len(BYTE_ORDER_MARK))
            for number, line in enumerate(file, 1):
                if number <= self.lead:
                    continue
                if "\0" in line:
                    raise self.refuse(
                        "a byte 0, which no text has", "Save the file as CSV anew", number
                    )
                yield line

    def rows(self, with_header: bool = False) -> Iterator[Tuple[int, List[str]]]:
        """Each row with the line on which it begins. Empty lines are rows without fields."""
        reader = csv.reader(self.text_lines(), delimiter=self.separator, strict=True)
        line = 0
        try:
            while True:
                line = reader.line_num + 1 + self.lead
                row = next(reader)
                if with_header:
                    yield line, row
                elif line != self.head_line:
                    yield line, row
        except StopIteration:
            return
        except csv.Error as fault:
            raise self.badly_quoted(str(fault), line) from fault

    def badly_quoted(self, fault: str, line: int) -> Refusal:
        """What is wrong with the quotes of a record, by what the module csv says."""
        if "expected after" in fault:
            return self.refuse(
                "text stands right behind a closing quote",
                "Write a quote inside a quoted field twice, and a backslash before it not at all",
                line
            )
        return self.refuse(
            "a quote is opened in this record and not closed",
            "Close it, or write a quote that belongs to the field twice inside quotes", line
        )

    def decoded(self, text: str, line: int, column: str) -> str:
        """The letters of bytes, by the encoding."""
        if text.isascii():
            return text
        raw = text.encode("latin-1")
        if self.encoding == "utf-8":
            try:
                return raw.decode("utf-8")
            except UnicodeDecodeError as fault:
                what = "%s isn't UTF-8" % shown(text)
                raise self.refuse(
                    what,
                    "If the file is in Latin-1 (as Windows writes it), add --encoding latin-1",
                    line, column
                ) from fault
        letters = raw.decode("cp1252", "ignore")
        return letters if len(letters) == len(raw) else text

    def is_text(self, text: str) -> bool:
        """Whether bytes are letters of the encoding."""
        if text.isascii() or self.encoding != "utf-8":
            return True
        try:
            text.encode("latin-1").decode("utf-8")
        except UnicodeDecodeError:
            return False
        return True

    def bytes_of(self, letters: str) -> str:
        """The bytes of letters of the command line as the file would have them, each as one
        character.
        """
        raw = os.fsencode(letters)
        if self.encoding != "utf-8":
            text = raw.decode("utf-8", "replace")
            raw = text.encode("cp1252", "replace")
        return raw.decode("latin-1")

    def column(self, wanted: str, made: Sequence[str]) -> int:
        """The number of a column by its name in the header, or by the name that the metadata have
        for it.
        """
        for names in (self.names, made):
            if wanted and wanted in names:
                return list(names).index(wanted)
        there = ", ".join(shown(it) for it in self.names if it)
        parts = [
            name if name in made or name in self.names else name.partition(":")[0]
            for name in wanted.split(",")
        ]
        is_list = len(parts) > 1 and set(parts) <= {*self.names, *made}
        do = "Give --by once for each column. " if is_list else ""
        raise self.refuse(
            "there is no column %s" % shown(wanted), do + "The header has " + there, self.head_line
        )


def first_row(front: str) -> str:
    """The text of the first row: up to the first line end outside quotes."""
    inside = False
    for k, it in enumerate(front):
        if it == '"':
            inside = not inside
        elif it in "\r\n" and not inside:
            return front[:k]
    return front


class Records:
    """The records of a CSV, by column: the line on which each begins, and the fields of the columns
    asked for.
    """

    def __init__(self, source: Source, columns: Sequence[int]) -> None:
        self.lines = array("Q")
        self.columns: Dict[int, List[str]] = {it: [] for it in columns}
        self.empty = 0
        # Codes of which some fields had blanks at their ends.
        self.blanks: Dict[int, Set[str]] = {it: set() for it in columns}
        self.read(source)

    def read(self, source: Source) -> None:
        """Takes the fields of the columns, without blanks at both ends, and passes over empty
        lines.
        """
        count = len(source.names)
        # (a text that occurs again is kept once)
        same: Dict[int, Dict[str, str]] = {it: {} for it in self.columns}
        takers = [(it, self.columns[it].append, same[it], self.blanks[it]) for it in self.columns]
        for line, row in source.rows():
            if len(row) != count or not row[0].strip(BLANKS):
                if not "".join(row).strip(BLANKS):
                    self.empty += 1
                    continue
                if len(row) != count:
                    raise wrong_count(source, line, row)
            if len(self.lines) == MOST_RECORDS:
                raise source.refuse(
                    "this is record 1,000,001, and argus takes 1,000,000",
                    "Take out the records without a value", line
                )
            self.lines.append(line)
            for column, append, known, blanks in takers:
                text = row[column]
                bare = text.strip(BLANKS)
                if bare != text:
                    blanks.add(bare)
                append(known.setdefault(bare, bare))
        if not self.lines:
            raise source.refuse(
                "there is no record below the header", "A record a line has to follow",
                source.head_line
            )


def wrong_count(source: Source, line: int, row: List[str]) -> Refusal:
    """A row with more or fewer fields than the header has names."""
    count = len(source.names)
    do = "Put fields that have the separator in them into quotes, and see that none is missing"
    if line == source.head_line + 1 and len(row) == count + 1:
        do = (
            "Does the header lack a name for the first column, as R's write.table leaves it out? "
            "Add one"
        )
    return source.refuse("%d fields, and the header has %d" % (len(row), count), do, line)
