"""Texts as parts of a page: names from files made safe, numbers in groups, lists in words."""

import base64
import hashlib
import html
import re
from typing import Any, Iterable, List, Sequence

# A sentence names at most so many cells before it says "and so many more".
MOST = 12
# Stands around what is no text in a sentence: the number of a cell, or where a sum begins or ends.
# No text of a file has it: visible() spells it out.
BREAK = "\x7f"


def visible(text: str) -> str:
    """A text of a file with its control characters, and bytes that are no text, spelled out."""

    def spelled(found: "re.Match[str]") -> str:
        code = ord(found[0])
        if code >= 0xDC80:
            return "\\x%02X" % (code - 0xDC00)
        return chr(0x2400 + code) if code < 32 else "\u2421"

    return re.sub("[\x00-\x1f\x7f\udc80-\udcff]", spelled, text)


def safe(text: str) -> str:
    """A text of a file as a part of the page: nothing in it is read as a mark."""
    return html.escape(visible(text), quote=True)


def some(given: Iterable[str], most: int = MOST) -> str:
    """The items of a list in words, the last ones counted where there are many."""
    items = list(given)
    if len(items) > most:
        return ", ".join(items[:most]) + " and %d more" % (len(items) - most)
    if len(items) == 1:
        return items[0]
    return ", ".join(items[:-1]) + " and " + items[-1] if items else ""


def grouped(count: int) -> str:
    """A whole number in groups of three digits."""
    return "{:,}".format(count).replace(",", "\u202f")


def percent(part: int, whole: int) -> str:
    """A share in percent; a dash where the whole is 0."""
    return "%.1f%%" % (100 * part / whole) if whole else "\u2013"


def product(lists: Iterable[Sequence[str]]) -> List[List[str]]:
    """Every choice of one item of each list, in order."""
    found: List[List[str]] = [[]]
    for items in lists:
        found = [[*it, item] for it in found for item in items]
    return found


def linked(cell: int) -> str:
    """A cell's number in a sentence, where the page has its name, which leads to it."""
    return "%s%d%s" % (BREAK, cell, BREAK)


def as_sum(text: str) -> str:
    """A part of a sentence that is a sum."""
    return "%s(%s%s%s)%s" % (BREAK, BREAK, text, BREAK, BREAK)


def pieces_of(sentence: str) -> List[Any]:
    """A sentence as the page's script takes it: texts, the numbers of cells, and for a sum the list
    of its own pieces."""
    stack: List[List[Any]] = [[]]
    for place, piece in enumerate(sentence.split(BREAK)):
        if place % 2 == 0:
            stack[-1] += [piece] if piece else []
        elif piece == "(":
            stack.append([])
        elif piece == ")":
            inner = stack.pop()
            stack[-1].append(inner)
        else:
            stack[-1].append(int(piece))
    return stack[0]


def checksum(text: str) -> str:
    """A text's checksum, as the page's policy names it."""
    return base64.b64encode(hashlib.sha256(text.encode("utf-8")).digest()).decode("ascii")
