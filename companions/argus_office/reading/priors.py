"""The lines of an a priori file, as far as they can be made out."""

from typing import List, NamedTuple

from argus_office.reading.files import BLANKS, content, lines_of, shown_name


class Statement(NamedTuple):
    """A line of an a priori file: the file, its line and its table; the codes of the cell; the
    keyword and its fields."""

    file: bytes
    line: int
    table: int
    codes: List[bytes]
    keyword: str
    fields: List[bytes]

    def place(self) -> str:
        """The line in words."""
        return "%s, line %d" % (shown_name(self.file), self.line)


def statements_of(name: bytes, table: int, separator: bytes, wide: int) -> List[Statement]:
    """The lines of an a priori file, as far as they have the codes and a keyword."""
    found = []
    for k, raw in enumerate(lines_of(content(name))):
        fields = [it.strip(BLANKS) for it in raw.split(separator)]
        if raw.strip(BLANKS) and len(fields) > wide:
            found.append(
                Statement(name, k + 1, table, fields[:wide], fields[wide].decode("latin-1").lower(),
                          fields[wide + 1:]))
    return found
