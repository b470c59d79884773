"""Metadata: variables with their places and keywords, as far as they can be made out."""

from typing import Dict, List, NamedTuple, Optional, Tuple

from argus_office.reading.files import (BLANKS, Word, content, is_number, lines_of, shown_name,
                                        words_of)


def whole(text: bytes) -> Optional[int]:
    """The whole number that a text is, if it is one."""
    return int(text) if is_number(text) and len(text) < 40 else None


class Line(NamedTuple):
    """A line of metadata: its number, its bytes, its words, and the keyword between < and > where
    it is a keyword line."""

    number: int
    raw: bytes
    words: List[Word]
    keyword: Optional[str]


class Variable:
    """A variable: its name, its line, where its field is, its missing codes and its keywords with
    their words."""
    def __init__(self, line: Line):
        said = [it.text for it in line.words]
        self.name, self.line = said[0], line.number
        self.first = whole(said[1]) if len(said) > 1 else None
        self.width = whole(said[2]) if len(said) > 2 else None
        self.missing = [it.strip(BLANKS) for it in said[3:5]]
        self.keywords: Dict[str, Tuple[int, List[bytes]]] = {}

    def last(self) -> int:
        """The last byte of the field."""
        return (self.first or 1) + (self.width or 1) - 1

    def says(self, keyword: str) -> Optional[bytes]:
        """The first word behind a keyword; nothing where there is none."""
        found = self.keywords.get(keyword)
        return found[1][0] if found and found[1] else None

    def files(self) -> List[bytes]:
        """The code list and the hierarchy file, as far as they are named, in the order of their
        lines."""
        named = [self.keywords.get(it) for it in ("CODELIST", "HIERCODELIST")]
        return [it[1][0] for it in sorted(it for it in named if it is not None) if it[1]]

    def is_number(self) -> bool:
        """Whether the variable is a number, and no code."""
        return "NUMERIC" in self.keywords or "WEIGHT" in self.keywords

    def decimals(self) -> int:
        """How many decimals the values have."""
        said = whole(self.says("DECIMALS") or b"0")
        return min(said or 0, 9)

    def levels(self) -> List[int]:
        """The widths of the levels, without the zeros at the end."""
        found = [whole(it) or 0 for it in self.keywords.get("HIERLEVELS", (0, []))[1]]
        while found and not found[-1]:
            found.pop()
        return found

    def total(self) -> bytes:
        """The code of the total."""
        said = self.says("TOTCODE")
        return b"Total" if said is None else said.strip(BLANKS)

    def lead(self) -> bytes:
        """What stands before a code in the hierarchy file for each level."""
        return self.says("HIERLEADSTRING") or b"@"

    def cut(self) -> slice:
        """Where the field is in a record."""
        return slice((self.first or 1) - 1, self.last())

    def field(self, record: bytes) -> bytes:
        """The bytes of the field in a record."""
        start = (self.first or 1) - 1
        return record[start:start + (self.width or 1)]

    def is_clear(self) -> bool:
        """Whether the place of the field can be made out."""
        return bool(self.first and self.width)


class Metadata:
    """The lines of a file of metadata and the variables in it, as far as they can be made out."""
    def __init__(self, name: bytes):
        self.name = name
        self.data = content(name)
        self.lines = [read_line(k + 1, raw) for k, raw in enumerate(lines_of(self.data))]
        self.variables: List[Variable] = []
        for line in self.lines:
            if line.keyword is not None:
                if self.variables:
                    self.variables[-1].keywords.setdefault(
                        line.keyword, (line.number, [it.text for it in line.words]))
            elif line.words:
                self.variables.append(Variable(line))

    def find(self, name: bytes) -> Optional[Variable]:
        """The first variable of a name."""
        return next((it for it in self.variables if it.name == name), None)

    def weight(self) -> Optional[Variable]:
        """The variable of the weights, if there is one."""
        return next((it for it in self.variables if "WEIGHT" in it.keywords), None)

    def before(self, number: int) -> List[Variable]:
        """The variables that stand before a line."""
        return [it for it in self.variables if it.line < number]

    def line(self, number: int) -> Optional[Line]:
        """The line of a number, from 1, where there is one."""
        return self.lines[number - 1] if 0 < number <= len(self.lines) else None

    def place(self, line: int) -> str:
        """A line of the metadata in words."""
        return "%s, line %d" % (shown_name(self.name), line)


def read_line(number: int, raw: bytes) -> Line:
    """A line of metadata."""
    start = len(raw) - len(raw.lstrip(BLANKS))
    if raw[start:start + 1] != b"<":
        return Line(number, raw, words_of(raw), None)
    end = raw.find(b">", start)
    if end < 0:
        return Line(number, raw, [], "")
    return Line(number, raw, words_of(raw, end + 1), raw[start + 1:end].decode("latin-1").upper())
