"""Bytes, lines, words and numbers, as all text files of argus share them. Files are read as bytes,
never as text.

Two kinds of bad news come out of this checker. `Unreadable` is a fault of an input: the first one
in the order in which the description of the formats looks for them. `NotAccepted` is a fault of a
release whose inputs can all be read. Each carries the sentence for people and the line in which
argus would report the same fault, so that the two programs can be compared.
"""
import re
from typing import List, Optional

BLANKS = b" \t"
INPUT_LIMIT = 268435456  # bytes of any input file
OUTPUT_LIMIT = 1 << 60  # bytes of a table, a certificate or a contributors' file
# Stands for every whole number with more than 40 digits: it is beyond every range.
TOO_WIDE = 10**40
NUMBER = re.compile(rb"([0-9]*)(?:\.([0-9]*))?")
FILE_NAME = re.compile(rb"[\x20\x21\x23-\x7e]{1,255}")


class Unreadable(Exception):
    """An input that can't be read: which one (in argus's words), its line or None, the kind of
    fault, and why in words.
    """
    def __init__(self, where: str, line: Optional[int], kind: str, words: str) -> None:
        place = where if line is None else "%s line %d" % (where, line)
        self.report = "read fault: " + place if kind == "read fault" else "refused: %s: %s" % (
            place, kind)
        super().__init__("can't be read: %s: %s (%s)" % (place, words, kind))


class NotAccepted(Exception):
    """A release that isn't as it should be: argus's report (without `not accepted: `), and the
    fault in words.
    """
    def __init__(self, kind: str, words: str, start: str = "not accepted") -> None:
        self.report = "%s: %s" % (start, kind)
        super().__init__("not accepted: %s (%s)" % (words, kind))


def printable(data: bytes) -> str:
    """Bytes of a code, a name or a line for one line of print: UTF-8 where it is, all else escaped.
    """
    text = data.decode("utf-8", "backslashreplace")
    return "".join(c if c.isprintable() else "\\x%02x" % ord(c) for c in text)


def read_file(name: bytes, where: str, limit: int = INPUT_LIMIT) -> bytes:
    """The whole file, or its fault: absent, not readable, longer than the limit (in bytes)."""
    try:
        with open(name, "rb") as file:
            data = file.read(limit + 1) if limit < OUTPUT_LIMIT else file.read()
    except FileNotFoundError:
        raise Unreadable(where, None, "Absent", "there is no file %s" % printable(name))
    except (OSError, ValueError):
        raise Unreadable(where, None, "read fault", "the file %s can't be read" % printable(name))
    if len(data) > limit:
        raise Unreadable(where, None, "TooLong",
                         "the file %s has more than %d bytes" % (printable(name), limit))
    return data


def lines(data: bytes) -> List[bytes]:
    """The lines without their ends.

    A line ends with LF or CR LF; the last end may be missing, and then a CR is text.
    """
    parts = data.split(b"\n")
    last = parts.pop()
    found = [part[:-1] if part.endswith(b"\r") else part for part in parts]
    if last:
        found.append(last)
    return found


def whole(word: bytes) -> Optional[int]:
    """A whole number: plain digits, zeros in front allowed; None for anything else."""
    if not word.isdigit():
        return None
    digits = word.lstrip(b"0")
    return int(digits or b"0") if len(digits) <= 40 else TOO_WIDE


def whole_in(word: bytes, low: int, high: int) -> Optional[int]:
    """A whole number within a range, or None."""
    number = whole(word)
    return number if number is not None and low <= number <= high else None


def units(word: bytes, decimals: int) -> Optional[int]:
    """A value in units of the last decimal: digits with at most one point and at most `decimals`
    digits behind it.
    """
    match = NUMBER.fullmatch(word)
    if not match:
        return None
    before, after = match.group(1), match.group(2) or b""
    if not before + after or len(after) > decimals:
        return None
    return whole(before + after.ljust(decimals, b"0"))


def print_units(value: int, decimals: int) -> bytes:
    """A value of units as the tables print it: a point and exactly so many digits, none for no
    decimals.
    """
    if decimals == 0:
        return b"%d" % value
    digits = b"%0*d" % (decimals + 1, value)
    return digits[:-decimals] + b"." + digits[-decimals:]
