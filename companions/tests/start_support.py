"""What the tests of `argus start` have in common: calls of start, and the sums of its files.

The sums of a CSV are worked out here by a reading of its own; those of the fixed-width files by the
positions of the metadata; and those of cells are what the program cells lists. All three have to be
the same. The bytes of codes are kept, each as a letter of Latin-1.
"""

import csv
import io
import os
import re
from fractions import Fraction
from itertools import product
from typing import Callable, Dict, List, Optional, Sequence, Tuple

from support import Answer, Case, ask, content
from writers import HEAD, Way

from argus_office.starting import run

# A code of each column, None for the total.
Key = Tuple[Optional[str], ...]
Row = Dict[str, str]
# The codes above that of a column in a record.
Above = Callable[[str, Row], Sequence[str]]


def start(*words: str) -> Answer:
    """What start answers, within this process."""
    status, out, err = run.told(words)
    return Answer(status, "\n".join(out), "\n".join(err))


def flat(_column: str, _row: Row) -> Sequence[str]:
    """No code above any."""
    return ()


def rows_of(name: str, way: Way) -> List[Row]:
    """The records of a CSV, by the names of the columns."""
    text = content(name).decode("latin-1").replace("\xef\xbb\xbf", "", 1)
    separator = way.separator
    if text[:4] == "sep=":
        separator, text = text[4], text[5:].lstrip("\r\n")
    lines = re.findall(r"[^\r\n]*(?:\r\n|[\r\n]|$)", text)
    rows = csv.reader(lines, delimiter=separator, strict=True)
    names = [it.strip(" \t") for it in next(rows)]
    return [dict(zip(names, it)) for it in rows if it]


def value_of(text: str, way: Way) -> Optional[Fraction]:
    """The number of a field, none where it means no answer."""
    text = text.strip()
    for mark, wanted in ((way.thousands, ""), (way.decimal, ".")):
        if mark:
            text = text.replace(mark.encode(way.encoding, "ignore").decode("latin-1"), wanted)
    return None if text in ("", way.missing) else Fraction(text)


def sums(
    name: str, way: Way, columns: Sequence[str], weight: Optional[str] = None, above: Above = flat
) -> Dict[Key, Fraction]:
    """The sum of the column turnover for each choice of codes; codes above a code count too."""
    found: Dict[Key, Fraction] = {}
    for row in rows_of(name, way):
        value = value_of(row["turnover"], way)
        if value is not None:
            value *= Fraction(row[weight].replace(way.decimal, ".")) if weight else 1
            for key in product(*((None, row[it].strip(" \t"), *above(it, row)) for it in columns)):
                found[key] = found.get(key, Fraction(0)) + value
    return found


def places(stem: str) -> Dict[str, Tuple[slice, List[str]]]:
    """Where each variable is in a record, and its codes for no answer, by the metadata."""
    found = {}
    for line in content(stem + ".rda").decode("latin-1").split("\n"):
        if line and line[0] != "<":
            name, first, width, *missing = line.split(" ")
            begin = int(first) - 1
            found[name] = (slice(begin, begin + int(width)), missing)
    return found


def cut(stem: str, columns: Sequence[str], weight: Optional[str] = None) -> Dict[Key, Fraction]:
    """The same sums from the fixed-width files, of the lowest codes alone."""
    found: Dict[Key, Fraction] = {}
    at = places(stem)
    where, missing = at["turnover"]
    for line in content(stem + ".asc").decode("latin-1").split("\n")[:-1]:
        text = line[where].strip()
        if text and text not in missing:
            key = tuple(line[at[it][0]].strip() for it in columns)
            value = Fraction(text) * (Fraction(line[at[weight][0]]) if weight else 1)
            found[key] = found.get(key, Fraction(0)) + value
    return found


def listed(stem: str, columns: Sequence[str]) -> Tuple[Dict[Key, Fraction], str]:
    """The same from the listing of the program cells, and what it says on standard error."""
    said = ask("cells", stem + ".job")
    found = {}
    for row in csv.DictReader(io.StringIO(said.out, newline="")):
        key = tuple(None if row[it] == "Total" else row[it] for it in columns)
        found[key] = Fraction(row["value"])
    return found, said.err.strip()


def told(name: str) -> str:
    """A file as text."""
    return content(name).decode("utf-8")


class StartCase(Case):
    """Tests of start."""

    def agree(
        self, name: str, way: Way, tables: Sequence[Sequence[str]], weight: Optional[str] = None,
        above: Above = flat
    ) -> int:
        """Checks the files it.asc, it.rda and it.job against it.csv, and gives the number of cells.
        """
        columns = sorted({it for table in tables for it in table}, key=HEAD.index)
        want = sums("it.csv", way, columns, weight)
        lowest = {key: it for key, it in want.items() if None not in key}
        self.same(cut("it", columns, weight), lowest, name + ": the sums of the records")
        want = {}
        for table in tables:
            for key, it in sums("it.csv", way, table, weight, above).items():
                by = dict(zip(table, key))
                want[tuple(by.get(column) for column in columns)] = it
        have, said = listed("it", columns)
        named = {key: it for key, it in have.items() if it or key in want}
        self.same(named, want, "%s: the listing of cells; %s" % (name, said))
        return len(have)

    def refused(self, answer: Answer, name: str, part: str, status: int = 2) -> None:
        """Checks a refusal: its status, a part of its words, and that it isn't a traceback."""
        is_so = answer.status == status and part in answer.err and "Traceback" not in answer.err
        self.wants(is_so, "%s: status %d, %s" % (name, answer.status, answer.err))

    def names(self) -> List[str]:
        """The names in the current folder."""
        return sorted(os.listdir("."))
