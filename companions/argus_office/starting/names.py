"""Names that argus's metadata and files take: letters and digits of ASCII, with `_`, `-` and `.`
between them.
"""

import re
import unicodedata
from typing import List, Sequence

# A variable's name has at most so many bytes.
LONGEST = 64
LETTERS = {
    "ä": "ae", "ö": "oe", "ü": "ue", "Ä": "Ae", "Ö": "Oe", "Ü": "Ue", "ß": "ss", "æ": "ae", "Æ":
    "Ae", "ø": "oe", "Ø": "Oe", "å": "aa", "Å": "Aa", "ł": "l", "Ł": "L", "œ": "oe", "đ": "d"
}


def plain(text: str, most: int = LONGEST) -> str:
    """The text in letters of ASCII: umlauts written out, accents dropped, and `_` for all else."""
    text = unicodedata.normalize("NFC", text)
    text = "".join(LETTERS.get(it, it) for it in text)
    text = unicodedata.normalize("NFKD", text)
    text = "".join(it for it in text if not unicodedata.combining(it))
    return re.sub(r"[^A-Za-z0-9._-]+", "_", text).strip("_")[:most]


def names_for(columns: Sequence[str]) -> List[str]:
    """A name for each column, all different; columns that need no change keep theirs."""
    made = ["" if plain(it) != it else it for it in columns]
    for k, column in enumerate(columns):
        if not made[k]:
            made[k] = free_name(plain(column, LONGEST - 6) or "column%d" % (k + 1), made)
    return made


def free_name(wanted: str, taken: Sequence[str]) -> str:
    """A name that none of those has: the one that is wanted, or with a number behind it."""
    name, number = wanted, 2
    while name in taken:
        name, number = "%s_%d" % (wanted, number), number + 1
    return name
