"""The words of the command."""

import copy
import os
from typing import Dict, List, Sequence, Set, Tuple

from argus_office.starting.depths import spellings
from argus_office.starting.refusals import Refusal, shown

USAGE = (
    "usage: argus start DATA.csv --value COLUMN --by COLUMN [--by COLUMN ..]   "
    "(argus start --help has all words)"
)
ONE = (
    "weight", "separator", "decimal", "encoding", "rule", "method", "cost", "steps",
    "nodes", "out"
)
MANY = (
    "value", "by", "table", "levels", "tree", "lead", "parent", "total", "missing", "apriori",
    "round", "order",
)
FLAGS = ("contributors", "count", "force")
ENCODINGS = {
    "utf-8": "utf-8", "utf8": "utf-8",
    "latin-1": "latin-1", "latin1": "latin-1", "iso-8859-1": "latin-1",
    "windows-1252": "latin-1", "cp1252": "latin-1",
}
HELP = os.path.join(os.path.dirname(os.path.realpath(__file__)), "help.txt")


class Usage(Exception):
    """The words are none that start knows; what is wrong with them."""


class Words:
    """The words, taken apart."""

    def __init__(self, words: Sequence[str]) -> None:
        self.csv = ""
        self.one: Dict[str, str] = {}
        self.many: Dict[str, List[str]] = {it: [] for it in MANY}
        self.flags: Set[str] = set()
        # Whether this is about one of several responses, with a job of its own.
        self.is_part = False
        left = list(words)
        while left:
            self.take(left.pop(0), left)
        if not self.csv:
            raise Usage("the name of a CSV is missing")
        # All responses, where this is about one of them too.
        self.values = list(self.many["value"])
        self.check()

    def parts(self) -> List["Words"]:
        """The words for each response."""
        if len(self.values) < 2:
            return [self]
        found = []
        for value in self.values:
            part = copy.copy(self)
            part.many = {**self.many, "value": [value]}
            part.is_part = True
            found.append(part)
        return found

    def take(self, word: str, left: List[str]) -> None:
        """Takes one word, with the one behind it where it needs one."""
        name, equals, value = word[2:].partition("=")
        if not word.startswith("--"):
            if self.csv:
                raise Usage("two names of files: %s and %s" % (shown(self.csv), shown(word)))
            self.csv = word
        elif name in FLAGS and not equals:
            self.flags.add(name)
        elif name in ONE or name in MANY:
            if not equals and not left:
                raise Usage("--%s needs a word behind it" % name)
            value = value if equals else left.pop(0)
            if name in MANY:
                self.many[name].append(value)
            elif name in self.one:
                raise Usage("--%s is there twice" % name)
            else:
                self.one[name] = value
        else:
            raise Usage("%s isn't a word of start" % shown(word))

    def check(self) -> None:
        """Refuses what can be seen without the CSV."""
        if self.many["by"] and self.many["table"]:
            raise Usage("--by is for one table, --table for several: give one of the two kinds")
        for value in self.values:
            if self.values.count(value) > 1:
                raise Usage("--value %s is there twice" % shown(value))
        self.check_count()
        separator = self.one.get("separator")
        if separator is not None:
            separator = {"tab": "\t", "\\t": "\t", "comma": ",", "semicolon":
                         ";"}.get(separator, separator)
            if len(separator
                   ) != 1 or not separator.isascii() or separator in '"\r\n' or separator.isalnum():
                raise Usage("--separator takes one mark of ASCII, as ';', or the word tab")
            self.one["separator"] = separator
        if self.one.get("decimal", ".") not in (".", ","):
            raise Usage("--decimal takes . or ,")
        if self.one.get("encoding", "utf-8").lower() not in ENCODINGS:
            raise Usage("--encoding takes utf-8 or latin-1")
        if self.one.get("cost", "VALUE").upper() not in ("VALUE", "FREQ", "UNIT"):
            raise Usage("--cost takes VALUE, FREQ or UNIT")
        for name in ("steps", "nodes"):
            number = self.one.get(name, "1")
            is_whole = number.isascii() and number.isdigit() and len(number) <= 13
            if not is_whole or not 1 <= int(number) <= 10**12:
                raise Usage("--%s takes a whole number from 1 to 1,000,000,000,000" % name)
        for word in self.many["missing"]:
            if not word.strip(" \t") or '"' in word or not word.isprintable():
                raise Usage(
                    "--missing takes a word without double quotes; an empty field means no answer "
                    "anyway"
                )

    def check_count(self) -> None:
        """Refuses words that don't go with counts."""
        if "count" not in self.flags:
            return
        if self.many["value"]:
            raise Usage("--count counts records, --value adds a column up: give one of the two")
        if "weight" in self.one:
            raise Usage("--count counts records, and with --weight they would be estimates: leave "
                        "one out")
        if self.many["apriori"]:
            raise Usage("--count writes a priori files of its own: add your lines to these, and "
                        "leave --apriori out")

    def encoding(self) -> str:
        """The encoding by the one name that start has for it."""
        return ENCODINGS[self.one.get("encoding", "utf-8").lower()]

    def pairs(self, name: str) -> List[Tuple[str, str]]:
        """The words COLUMN=VALUE of a name, each column once."""
        found: List[Tuple[str, str]] = []
        for word in self.many[name]:
            is_number = name in ("levels", "round")
            column, equals, value = word.rpartition("=") if is_number else word.partition("=")
            if not equals or not column or not value:
                raise Usage("--%s takes two words with = between them: %s" % (name, shown(word)))
            if column in [it for it, _ in found]:
                raise Usage("--%s is there twice for %s" % (name, shown(column)))
            found.append((column, value))
        return found

    def tables(self) -> List[List[str]]:
        """The variables of each table, as they are written in the words."""
        if self.many["by"]:
            return [self.many["by"]]
        return [it.split(",") for it in self.many["table"]]

    def named(self) -> List[Tuple[str, ...]]:
        """Every column that the words name, each with the names that it may have."""
        found = [spellings(it) for table in self.tables() for it in table]
        found += [(it,) for it in self.values]
        found += [(self.one["weight"],)] if "weight" in self.one else []
        for name in ("levels", "tree", "parent", "total", "round", "order"):
            found += [(column,) for column, _ in self.pairs(name)]
        return found


def decimals_of(text: str, column: str) -> int:
    """The decimals that a column is rounded to."""
    if len(text) != 1 or text not in "0123456789":
        raise Refusal(
            "--round %s=%s isn't a number of decimals" % (shown(column), shown(text)),
            "Give one from 0 to 9, as --round %s=2" % shown(column)
        )
    return int(text)


def levels_of(text: str, column: str) -> Tuple[int, ...]:
    """The widths of levels; zeros at the end add no level."""
    parts = text.split(",")
    if not all(it.isascii() and it.isdigit() and len(it) <= 3 for it in parts):
        raise Refusal(
            "--levels %s=%s isn't numbers with commas" % (shown(column), shown(text)),
            "Give the bytes of each level, as --levels %s=2,1,2" % shown(column)
        )
    widths = [int(it) for it in parts]
    while widths and widths[-1] == 0:
        widths.pop()
    if not 1 <= len(widths) <= 9 or 0 in widths or sum(widths) > 255:
        raise Refusal(
            "--levels %s=%s isn't 1 to 9 levels of at most 255 bytes together" %
            (shown(column), shown(text)), "Correct it"
        )
    return tuple(widths)
