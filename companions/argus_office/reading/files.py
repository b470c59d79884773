"""Files as bytes, their lines and words, and how bytes are shown to a person.

argus reads bytes, so places count bytes from 1. A blank is a space or a tab; a line ends with LF or
with CR and LF (docs/MANUAL.md, All text files).
"""

import errno
import os
import stat
from typing import BinaryIO, Iterable, List, NamedTuple, Optional

BLANKS = b" \t"
MARK = b"\xef\xbb\xbf"
# argus takes so many bytes of an input at most.
LONGEST_FILE = 268435456


class Unread(Exception):
    """A file that couldn't be read: its name, the reason in a few words, and the system's own."""
    def __init__(self, name: bytes, reason: str, number: int = 0) -> None:
        super().__init__(name, reason)
        self.name, self.reason = name, reason
        self.system = os.strerror(number) if number else reason

    def text(self) -> str:
        """The fault in a sentence."""
        return "%s can't be read here: %s." % (shown_name(self.name), self.reason)

    def line(self) -> str:
        """The fault in a line, as a program says it: the name, and the system's reason."""
        return "%s: %s" % (text_of(self.name), self.system)


def opened(name: bytes) -> BinaryIO:
    """A plain file, opened. A pipe or a device isn't waited for. Raises Unread."""
    try:
        check_plain(name, os.stat(name).st_mode)
        number = os.open(name, os.O_RDONLY | os.O_NONBLOCK | os.O_CLOEXEC)
    except OSError as fault:
        raise Unread(name, fault.strerror or "unknown reason") from fault
    except ValueError as fault:
        raise Unread(name, "its name can't be that of a file") from fault
    try:
        check_plain(name, os.fstat(number).st_mode)
    except Unread:
        os.close(number)
        raise
    return os.fdopen(number, "rb")


def check_plain(name: bytes, mode: int) -> None:
    """Raises Unread where a mode isn't that of a plain file."""
    if not stat.S_ISREG(mode):
        raise Unread(name, "it is no plain file", errno.EISDIR if stat.S_ISDIR(mode) else 0)


def content(name: bytes, most: Optional[int] = LONGEST_FILE) -> bytes:
    """The bytes of a plain file of at most so many, as many as argus takes of an input; of any size
    where there is no limit. Raises Unread."""
    with opened(name) as file:
        size = os.fstat(file.fileno()).st_size
        if most is not None and size > most:
            raise Unread(name, "it has %d bytes, more than argus takes" % size)
        try:
            return file.read()
        except OSError as fault:
            raise Unread(name, fault.strerror or "unknown reason") from fault


def text_of(data: bytes) -> str:
    """Bytes as a text: UTF-8, where bytes that are none stay as surrogates."""
    return data.decode("utf-8", "surrogateescape")


def bytes_of(text: str) -> bytes:
    """The bytes of a text that was made of bytes so."""
    return text.encode("utf-8", "surrogateescape")


def lines_of(data: bytes) -> List[bytes]:
    """The lines without their ends. A CR that no LF follows is a byte of its line."""
    pieces = data.split(b"\n")
    lines = [it[:-1] if it.endswith(b"\r") else it for it in pieces[:-1]]
    return lines + [pieces[-1]] if pieces[-1] else lines


def shown(text: bytes, most: int = 60) -> str:
    """Bytes between double quotes, in one line: UTF-8 where they are that and can be printed, else
    byte by byte, cut where long."""
    try:
        said = text.decode("utf-8")
    except UnicodeDecodeError:
        said = "".join(chr(it) if 32 <= it < 127 else "\\x%02x" % it for it in text[:4 * most])
    said = "".join(it if it.isprintable() else "\\t" if it == "\t" else "".join(
        "\\x%02x" % b for b in it.encode()) for it in said[:4 * most])
    return '"%s"' % said if len(said) <= most else '"%s.."' % said[:most]


def bare(text: bytes, most: int = 80) -> str:
    """A line or a word of a job or of metadata as it stands; between quotes where it is empty or
    has blanks at an end."""
    said = shown(text, most)
    return said[1:-1] if text and text == text.strip(BLANKS) else said


def shown_name(name: bytes) -> str:
    """The name of a file or a variable, without quotes where it needs none."""
    said = shown(name, 80)
    return said[1:-1] if name and b" " not in name else said


def listed(items: Iterable[str], most: int = 8) -> str:
    """Items joined by commas and an `and`; how many more there are, where they are many."""
    every = list(items)
    if len(every) > most:
        return ", ".join(every[:most]) + " and %d more" % (len(every) - most)
    return every[0] if len(
        every) == 1 else ", ".join(every[:-1]) + " and " + every[-1] if every else "none"


def grouped(number: int) -> str:
    """A whole number with commas between thousands, as the pages print limits."""
    return format(number, ",d")


def bytes_range(first: int, last: int) -> str:
    """Bytes of a line in words, by the first and the last of them."""
    return "byte %d" % first if first == last else "bytes %d to %d" % (first, last)


def is_number(text: bytes) -> bool:
    """Whether the text is a whole number: plain ASCII digits, at least one."""
    return bool(text) and all(48 <= it <= 57 for it in text)


def marked(text: str) -> str:
    """A text in one line of ASCII: what can't be printed so is marked."""
    return "".join(it if " " <= it <= "~" else "?" for it in text)


class Word(NamedTuple):
    """A word of a line: what it says, without quotes; where it begins, from 0; how many bytes it
    takes there; whether it is quoted."""

    text: bytes
    at: int
    size: int
    is_quoted: bool

    def place(self) -> str:
        """The bytes of the word in its line."""
        return bytes_range(self.at + 1, self.at + max(self.size, 1))


def words_of(line: bytes, at: int = 0) -> List[Word]:
    """The words of a line of metadata from a place on: quoted, or runs of bytes without blanks."""
    found = []
    while at < len(line):
        if line[at:at + 1] in (b" ", b"\t"):
            at += 1
            continue
        end = line.find(b'"', at + 1) if line[at:at + 1] == b'"' else -1
        if end >= 0:
            found.append(Word(line[at + 1:end], at, end + 1 - at, True))
            at = end + 1
            continue
        end = at
        while end < len(line) and line[end:end + 1] not in (b" ", b"\t"):
            end += 1
        found.append(Word(line[at:end], at, end - at, False))
        at = end
    return found
