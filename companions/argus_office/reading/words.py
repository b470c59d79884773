"""Words that are like known ones, and quotes that a word processor has curled."""

import difflib
from typing import Iterable, Optional, Sequence

# Quotes that word processors put in place of the straight one, in UTF-8 and in Windows-1252.
CURLED = ("\u201c", "\u201d", "\u201e", "\u201f", "\u00ab", "\u00bb", "\u2018", "\u2019")
CURLED_BYTES = tuple(
    it.encode() for it in CURLED) + (b"\x93", b"\x94", b"\x84", b"\xab", b"\xbb", b"\x91", b"\x92")
LONGEST_COMPARED = 255


def nearest(word: str, known: Sequence[str]) -> Optional[str]:
    """The known word that is most like a word, if any is. Very long ones aren't compared, which
    would take long."""
    if len(word) > LONGEST_COMPARED:
        return None
    found = difflib.get_close_matches(word.upper(),
                                      [it.upper() for it in known if len(it) <= LONGEST_COMPARED],
                                      1, 0.7)
    return next((it for it in known if found and it.upper() == found[0]), None)


def same_but_case(name: bytes, known: Iterable[bytes]) -> Optional[bytes]:
    """A known name that differs from a name in large and small letters alone."""
    return next((it for it in known if it != name and it.lower() == name.lower()), None)


def curled_in(text: bytes) -> Optional[int]:
    """Where a curled quote begins, if the text has one."""
    found = [text.find(it) for it in CURLED_BYTES[:8]]
    if all(it < 0 for it in found):
        try:
            text.decode("utf-8")
        except UnicodeDecodeError:
            found = [text.find(it) for it in CURLED_BYTES[8:]]
    return min((it for it in found if it >= 0), default=None)
