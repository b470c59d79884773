"""What the tests of the Python interface have in common: records, and sums that no program of ours
worked out."""

import collections
import csv
import itertools
import os
import sys
from decimal import Decimal
from fractions import Fraction
from typing import Any, Dict, List, Mapping, Sequence, Tuple
from unittest import mock

from support import Case, TOP, put

from argus_office.api import ArgusError, protect
from argus_office.api.listing import Cell

FIRMS = os.path.join(TOP, "examples", "own", "firms.csv")
Columns = Dict[str, List[Any]]
# The codes of a place, with "Total" where it isn't split, and its sum and number of records.
Sums = Dict[Tuple[str, ...], Tuple[Fraction, int]]


def firms() -> Columns:
    """The records of the example, as its CSV has them."""
    with open(FIRMS, encoding="utf-8", newline="") as file:
        rows = list(csv.DictReader(file))
    return {name: [row[name] for row in rows] for name in rows[0]}


def even(count: int) -> Columns:
    """Records that no rule names: four in each of four places, of nearly the same value."""
    places = [(r, b) for r in ("A", "B") for b in ("X", "Y") for _ in range(count)]
    return {
        "region": [r for r, _ in places],
        "branch": [b for _, b in places],
        "turnover": [100 + k % 7 for k in range(len(places))],
    }


def sums_of(columns: Mapping[str, Sequence[Any]], names: Sequence[str], value: str) -> Sums:
    """Sums and counts of all places of a table, by the records alone; records without a value are
    left out."""
    sums: Dict[Tuple[str, ...], Fraction] = collections.defaultdict(Fraction)
    counts: Dict[Tuple[str, ...], int] = collections.Counter()
    for *codes, amount in zip(*(columns[it] for it in [*names, value])):
        if amount in (None, ""):
            continue
        for at in itertools.product(*((str(it), "Total") for it in codes)):
            sums[at] += Fraction(str(amount))
            counts[at] += 1
    return {at: (sums[at], counts[at]) for at in sums}


def of_cells(cells: Sequence[Cell], names: Sequence[str]) -> Sums:
    """The same of the cells of a release."""
    return {tuple(it.codes[n] for n in names): (Fraction(it.value), it.freq) for it in cells}


class ApiCase(Case):
    """Tests of the interface, which have a folder of their own."""

    def refusal(self, kind: type, data: Any, **more: Any) -> ArgusError:
        """The exception that a call ends in, which is of a kind and of no other."""
        words: Dict[str, Any] = {"value": "turnover", "tables": [["region", "branch"]], **more}
        with self.assertRaises(ArgusError) as raised:
            protect(data, **words)
        self.same(type(raised.exception), kind, "the kind of exception")
        return raised.exception

    def put_firms(self) -> str:
        """The example's CSV in the folder of this test."""
        with open(FIRMS, "rb") as file:
            return put(os.path.join(self.folder, "firms.csv"), file.read())

    def put_argus(self, text: str) -> str:
        """A stand-in for argus."""
        path = put(os.path.join(self.folder, "bin", "argus"), "#!/bin/sh\n" + text)
        os.chmod(path, 0o755)
        return path


def without(module: str) -> Any:
    """A time in which a module can't be imported."""
    return mock.patch.dict(sys.modules, {module: None})


def decimals(values: Sequence[str]) -> List[Decimal]:
    """Texts as exact numbers."""
    return [Decimal(it) for it in values]
