"""Reads the files back that start wrote, as argus would, and compares every record with the CSV.

The metadata are read from their file, the fields cut by their positions, and numbers compared
exactly; nothing of what was worked out while writing is used but the separator and the marks of
numbers.
"""

import os
from fractions import Fraction
from itertools import zip_longest
from math import floor
from typing import Dict, Iterator, List, NamedTuple, Optional, Sequence, Set, Tuple, Union

from argus_office.reading.metadata import Metadata, Variable
from argus_office.starting.amounts import Marks
from argus_office.starting.csv_file import BLANKS, Source
from argus_office.starting.refusals import Difference, shown
from argus_office.starting.tree_files import read_text, read_tree


class Place(NamedTuple):
    """A variable as the metadata have it."""

    name: str
    first: int
    width: int
    missing: Sequence[str]
    keywords: Dict[str, Sequence[str]]

    def slice(self) -> slice:
        """Where the field is in a record."""
        return slice(self.first - 1, self.first - 1 + self.width)

    def decimals(self) -> int:
        """The digits behind the point, by `<DECIMALS>`."""
        return int((self.keywords.get("<DECIMALS>") or ["0"])[0])


def places_of(path: str) -> List[Place]:
    """The variables of the metadata, in order."""
    return [place_of(it) for it in Metadata(os.fsencode(path)).variables]


def place_of(variable: Variable) -> Place:
    """A variable of the metadata, its bytes each as a letter of Latin-1."""
    keywords: Dict[str, Sequence[str]] = {
        "<%s>" % keyword: [it.decode("latin-1") for it in words]
        for keyword, (_, words) in variable.keywords.items()
    }
    missing = [it.decode("latin-1") for it in variable.missing]
    name = variable.name.decode("latin-1")
    return Place(name, variable.first or 1, variable.width or 1, missing, keywords)


class Wanted(NamedTuple):
    """Which column of the CSV a variable is, and of a tree by groups the columns of its groups.

    No column is the response of counts: 1 in each record.
    """

    column: Optional[int]
    groups: Sequence[int]
    # To how many decimals its numbers are rounded, where they are.
    decimals: Optional[int] = None


class Comparison:
    """The files in a folder against the CSV."""

    def __init__(
        self, source: Source, folder: str, stem: str, wanted: Sequence[Wanted], missing: Set[str],
        marks: Marks
    ) -> None:
        self.source, self.folder, self.stem = source, folder, stem
        self.missing, self.marks = missing, marks
        self.places = places_of(os.path.join(folder, stem + ".rda"))
        self.wanted = wanted
        self.trees = [self.tree(place, it) for place, it in zip(self.places, wanted)]

    def differs(self, line: int, place: Place, there: str, here: str) -> Difference:
        """The fault that a record isn't that of the CSV."""
        return Difference(
            "%s, line %d, %s: the CSV has %s, and %s.asc has %s" %
            (self.source.name, line, place.name, shown(there), self.stem, shown(here))
        )

    def tree(self, place: Place, wanted: Wanted) -> Dict[str, str]:
        """The parent of each code, where the tree was written from columns."""
        if not wanted.groups:
            return {}
        path = os.path.join(self.folder, place.keywords["<HIERCODELIST>"][0])
        lead = (place.keywords.get("<HIERLEADSTRING>") or ["@"])[0]
        return read_tree(read_text(path), lead, "", self.stem)

    def records(self) -> Iterator[str]:
        """The records of the microdata."""
        with open(
            os.path.join(self.folder, self.stem + ".asc"), encoding="latin-1", newline="\n"
        ) as file:
            for record in file:
                yield record[:-1]

    def rows(self) -> Iterator[Tuple[int, List[str]]]:
        """The records of the CSV, read anew, without empty lines."""
        for line, row in self.source.rows():
            if any(it.strip(BLANKS) for it in row):
                yield line, row

    def run(self) -> int:
        """How many records were compared; the first that differs is a fault."""
        if len(self.places) != len(self.wanted):
            raise Difference(
                "%s.rda has %d variables, not %d" % (self.stem, len(self.places), len(self.wanted))
            )
        both = list(zip(self.places, self.wanted))
        codes = [(place.slice(), it.column, place)
                 for place, it in both
                 if "<NUMERIC>" not in place.keywords and it.column is not None]
        numbers = [(place, it, place.decimals())
                   for place, it in both
                   if "<NUMERIC>" in place.keywords]
        with_groups = any(self.trees)
        count = 0
        for pair, record in zip_longest(self.rows(), self.records()):
            if pair is None or record is None:
                raise Difference(
                    "%s.asc has %s records than %s" %
                    (self.stem, "fewer" if record is None else "more", self.source.name)
                )
            line, row = pair
            for where, column, place in codes:
                if record[where].strip(BLANKS) != row[column].strip(BLANKS):
                    raise self.differs(line, place, row[column], record[where])
            for place, number, decimals in numbers:
                here = record[place.slice()].strip(BLANKS)
                there = "1" if number.column is None else row[number.column].strip(BLANKS)
                if self.mine(here, place, decimals) != self.theirs(there, decimals, number):
                    raise self.differs(line, place, there, here)
            if with_groups:
                self.check_groups(line, row, self.wanted[-1].column)
            count += 1
        return count

    def check_groups(self, line: int, row: Sequence[str], value: Optional[int]) -> None:
        """Each record that counts has its code below the groups that the CSV says, up to the total.
        """
        for place, wanted, tree in zip(self.places, self.wanted, self.trees):
            if not tree or wanted.column is None:
                continue
            code = row[wanted.column].strip(BLANKS)
            is_kept = value is None or row[value].strip(BLANKS) not in self.missing
            if code not in self.missing and is_kept:
                chain = [row[it].strip(BLANKS) for it in wanted.groups]
                if [tree.get(it) for it in (code, *chain)] != [*chain, ""]:
                    raise self.differs(line, place, " in ".join([code, *chain]), "another tree")

    def mine(self, text: str, place: Place, decimals: int) -> Union[int, Fraction, None]:
        """The number of a field, in units; none where there is no answer."""
        if text == "" or text in place.missing:
            return None
        whole, _, rest = text.partition(".")
        if len(rest) != decimals:
            return Fraction(text) * power(decimals)
        return int(whole + rest)

    def theirs(self, text: str, decimals: int, wanted: Wanted) -> Union[int, Fraction, None]:
        """The number of a field of the CSV, in units; none where there is no answer."""
        if text in self.missing:
            return None
        marks = self.marks
        if marks.thousands:
            text = self.source.decoded(text, 0, "").replace(marks.thousands, "")
        whole, _, rest = text.partition(marks.decimal)
        if whole.isdigit() and (rest.isdigit() or not rest) and len(rest) <= decimals:
            return int(whole + rest.ljust(decimals, "0"))
        number = Fraction(text.replace(marks.decimal, ".").rstrip("."))
        if wanted.decimals is not None:
            scale = power(wanted.decimals)
            number = Fraction(floor(number * scale + Fraction(1, 2)), scale)
        return number * power(decimals)


def power(decimals: int) -> int:
    """How many units a whole has, with so many decimals."""
    return int(10**decimals)
