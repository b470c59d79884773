"""The tables as they should be, and what the files show (manual: The table file; Controlled
rounding)."""
import re
from typing import Dict, List, Optional, Set, Tuple

from argus_outside.cells import Book
from argus_outside.texts import NotAccepted, print_units, printable

VALUE = re.compile(rb"(0|[1-9][0-9]*)(?:\.([0-9]+))?")
SHOWN = 10**37


def field(data: bytes) -> bytes:
    """A field of a line: in double quotes exactly where it has a comma, a quote, CR or LF."""
    if any(mark in data for mark in (b",", b'"', b"\r", b"\n")):
        return b'"' + data.replace(b'"', b'""') + b'"'
    return data


def _start(book: Book, table: int) -> Tuple[bytes, List[bytes]]:
    """A table's first line, and what stands before the value in each further one."""
    bound = book.bound
    names = [bound.spanning[variable].name
             for variable in bound.tables[table]] + [bound.response.name]
    codes = [[field(code) for code in tree.codes] for tree in book.trees]
    starts = [
        b"".join(codes[variable][book.cells[cell].name[variable]] + b","
                 for variable in bound.tables[table]) for cell in book.tables[table]
    ]
    return b",".join(map(field, names)) + b"\n", starts


def _place(table: int, name: bytes, line: int) -> str:
    return "table %d (%s), line %d" % (table + 1, printable(name), line)


def _wrong(table: int, name: bytes, line: int, is_: Optional[bytes], words: str) -> NotAccepted:
    shows = "is missing" if is_ is None else "is '%s'%s" % (printable(
        is_[:200].rstrip(b"\n")), "" if is_.endswith(b"\n") else " without its end")
    return NotAccepted("Release %d %d" % (table + 1, line),
                       "%s %s, %s" % (_place(table, name, line), shows, words))


def check_suppressed(book: Book, hidden: Set[int], names: List[bytes], files: List[bytes]) -> None:
    """Every table shows `x` for the hidden cells, the true value for all others, and nothing else.
    """
    for table, (name, data) in enumerate(zip(names, files)):
        first, starts = _start(book, table)
        wanted = [first]
        for start, cell in zip(starts, book.tables[table]):
            value = b"x" if cell in hidden else print_units(book.cells[cell].truth,
                                                            book.bound.decimals)
            wanted.append(start + value + b"\n")
        found = re.findall(rb"[^\n]*\n|[^\n]+", data)
        for line in range(max(len(wanted), len(found))):
            is_ = found[line] if line < len(found) else None
            if line >= len(wanted):
                raise _wrong(table, name, line + 1, is_, "behind the last cell")
            if is_ != wanted[line]:
                raise _wrong(table, name, line + 1, is_,
                             "and should be '%s'" % printable(wanted[line][:-1]))


def read_rounded(book: Book, names: List[bytes], files: List[bytes]) -> List[int]:
    """The numbers, in units, of which these files are the tables: each at its place, shared cells
    with one number.
    """
    values: Dict[int, int] = {}
    for table, (name, data) in enumerate(zip(names, files)):
        first, starts = _start(book, table)
        found = re.findall(rb"[^\n]*\n|[^\n]+", data)
        if not found or found[0] != first:
            raise _wrong(table, name, 1, found[0] if found else None,
                         "and should be '%s'" % printable(first[:-1]))
        for line, (start, cell) in enumerate(zip(starts, book.tables[table]), 2):
            is_ = found[line - 1] if line <= len(found) else None
            value = _value(is_, start, book.bound.decimals)
            if value is None:
                raise _wrong(table, name, line, is_,
                             "and no number makes it the line of %s" % book.named(cell))
            if values.get(cell, value) != value:
                raise _wrong(table, name, line, is_, "and an earlier table shows another number")
            values[cell] = value
        if len(found) > len(starts) + 1:
            raise _wrong(table, name,
                         len(starts) + 2, found[len(starts) + 1], "behind the last cell")
    return [values[cell] for cell in range(len(book.cells))]


def _value(line: Optional[bytes], start: bytes, decimals: int) -> Optional[int]:
    """The number of a line that begins as it should, in units."""
    if line is None or not line.startswith(start) or not line.endswith(b"\n"):
        return None
    match = VALUE.fullmatch(line[len(start):-1])
    if not match or len(match.group(2) or b"") != decimals or len(line) > len(start) + 60:
        return None
    value = int(match.group(1) + (match.group(2) or b""))
    return value if value < SHOWN else None


def check_rounded(book: Book, values: List[int], base: int) -> None:
    """Every number is a multiple of the base, less than one base from the true value, and all sums
    hold.
    """
    for number, (cell, value) in enumerate(zip(book.cells, values)):
        if value % base or abs(value - cell.truth) >= base:
            raise NotAccepted(
                "Rounded %d" % number,
                "%s shows no multiple of the base next to its value" % book.named(number))
    for number, (total, _, parts) in enumerate(book.relations):
        if values[total] != sum(values[part] for part in parts):
            raise NotAccepted("Relation %d" % number,
                              "%s doesn't hold in the tables" % book.named_relation(number))
