"""Tries how values of lists and frames come to argus and back: none is changed, and nothing is
rounded that wasn't asked for."""

import collections
import datetime
import importlib.util
import random
import unittest
from decimal import Decimal
from fractions import Fraction
from typing import Any, Dict, List

from api_support import ApiCase, even, of_cells, sums_of

from argus_office.api import protect
from argus_office.api.frames import rounded, text_of

HAS_PANDAS = importlib.util.find_spec("pandas") is not None
# No rule names a cell of these records, so that each is shown.
NONE = "FREQ(1,0)"


class Texts(ApiCase):
    """Values as fields of a CSV."""

    def test_values(self) -> None:
        wanted = {
            "1": 1, "9007199254740993": 2**53 + 1, "0.1": 0.1, "2.5": 2.5, "3": 3.0,
            "1e+16": 1e16, "1000": Decimal("1E+3"), "0.10": Decimal("0.10"), "": None,
            "2025-12-02": datetime.date(2025, 12, 2), "K\u00f6ln": "K\u00f6ln", "True": True,
            "2025-12-02 13:05:00": datetime.datetime(2025, 12, 2, 13, 5),
        }
        for text, value in wanted.items():
            self.same(text_of(value), text, repr(value))
        for value in (float("nan"), Decimal("NaN"), Decimal("sNaN")):
            self.same(text_of(value), "", repr(value))
        for value in (0.0, -0.0):
            self.same(text_of(value), "0", repr(value))
        self.same(text_of(Decimal("-0.0")), "0.0", "minus zero")

    def test_rounding_is_half_away_from_zero_and_exact(self) -> None:
        wanted = {("0.125", 2): "0.13", ("0.135", 2): "0.14", ("2.675", 2): "2.68",
                  ("-0.125", 2): "-0.13", ("-0.004", 2): "0.00", ("7", 2): "7.00", ("", 2): "",
                  ("1e-5", 3): "0.000", ("99999999999999.9999995", 6): "100000000000000.000000"}
        for (text, decimals), said in wanted.items():
            self.same(rounded(text, decimals, "v"), said, text)

    def test_rounding_beside_whole_numbers(self) -> None:
        draw = random.Random(3)
        for _ in range(2000):
            digits, behind = draw.randrange(10**15), draw.randint(4, 13)
            decimals = draw.randint(0, 3)
            unit = 10 ** (behind - decimals)
            whole = (2 * digits + unit) // (2 * unit)
            text = rounded(format(Decimal(digits).scaleb(-behind), "f"), decimals, "v")
            self.same(int(text.replace(".", "")), whole, "%d / 10^%d" % (digits, behind))


class Lists(ApiCase):
    """Mappings of lists."""

    def there_and_back(self, codes: List[Any]) -> List[str]:
        """The codes that come back of those that are given, each of four records."""
        data = {"code": codes * 4, "value": [10] * (4 * len(codes))}
        cells = protect(data, "value", [["code"]], rules=NONE).cells
        self.same({it.freq for it in cells[1:]}, {4}, "records of each code")
        return [it.codes["code"] for it in cells[1:]]

    def test_codes(self) -> None:
        kinds: Dict[str, List[Any]] = {
            "umlauts": ["K\u00f6ln", "M\u00fcnchen", "\u0141\u00f3d\u017a", "\u6771\u4eac"],
            "numbers": [2**53 + 1, 2**53 + 2, 2**63 + 5], "dates": [
                datetime.date(2025, 1, 31), datetime.date(2024, 2, 29)],
            "marks": ['a "quoted" code', "a, b; c", "it's", "100 %", "<b>", "\\n", "a\tb"],
            "none": [None, "A", "B"], "spread": ["A" * 200, "B"],
        }
        for what, codes in kinds.items():
            self.same(sorted(self.there_and_back(codes)), sorted(map(text_of, codes)), what)

    def test_values_are_exact(self) -> None:
        data: Dict[str, List[Any]] = {
            **even(2), "turnover": [0.1, Decimal("0.20"), "0.3", 4, 1e5, 0.000001, 7, None]}
        (total, *_) = protect(data, "turnover", [["region", "branch"]], rules=NONE).cells
        self.same((total.value, total.freq), (Decimal("100011.600001"), 7), "the total")

    def test_thirteen_decimals_are_rounded_as_asked(self) -> None:
        data = {**even(4), "turnover": [k + 0.0050000000001 for k in range(16)]}
        release = protect(data, "turnover", [["region", "branch"]], rules=NONE,
                          round={"turnover": 2})
        self.same(release.cells[0].value, Decimal("120.16"), "0 to 15, and 0.01 each")


@unittest.skipUnless(HAS_PANDAS, "pandas isn't installed for this Python")
class Frames(ApiCase):
    """Frames of pandas."""

    def setUp(self) -> None:
        super().setUp()
        self.pandas: Any = importlib.import_module("pandas")

    def test_cells_tables_and_intervals_are_frames(self) -> None:
        frame = self.pandas.DataFrame(even(4))
        release = protect(frame, "turnover", [["region", "branch"]], rules="NK(1,20)|FREQ(5,30)")
        cells = release.cells
        self.same(list(cells.columns), ["region", "branch", "number", "tables", "value", "freq",
                                        "status", "rules", "origin", "up", "down", "published"],
                  "columns")
        wanted = sums_of(even(4), ("region", "branch"), "turnover")
        found = {(it.region, it.branch): (Fraction(it.value), it.freq)
                 for it in cells.itertuples()}
        self.same(found, wanted, "values and records")
        self.assertIsInstance(cells.value[0], Decimal)
        table = release.tables[0]
        self.same(list(table.columns), ["region", "branch", "turnover"], "columns of the table")
        hidden = cells[cells.status.isin(["u", "x"])]
        self.same(table.turnover.isna().sum(), len(hidden), "hidden values")
        self.same(list(release.intervals().number), list(hidden.number), "intervals")
        self.assertTrue((release.intervals().low <= hidden.value.values).all())

    def test_categories_missing_values_and_dates(self) -> None:
        pandas = self.pandas
        frame = pandas.DataFrame({
            "kind": pandas.Categorical(["b", "a", None, "b"] * 5, categories=["b", "a", "never"]),
            "day": pandas.to_datetime(["2025-01-31", "2024-02-29", None, "2025-01-31"] * 5),
            "number": pandas.array([2**53 + 1, 2**53 + 2, None, 2**53 + 1] * 5, dtype="Int64"),
            "turnover": [1.5, 2.5, 3.5, float("nan")] * 5,
        })
        names = ("kind", "day", "number")
        release = protect(frame, "turnover", [names], rules=NONE)
        cells = release.cells
        plain = {"kind": ["b", "a", "", "b"] * 5, "turnover": ["1.5", "2.5", "3.5", None] * 5,
                 "day": ["2025-01-31", "2024-02-29", "", "2025-01-31"] * 5,
                 "number": [str(2**53 + 1), str(2**53 + 2), "", str(2**53 + 1)] * 5}
        wanted = sums_of(plain, names, "turnover")
        found = {(it.kind, it.day, it[3]): (Fraction(it.value), it.freq)
                 for it in cells.itertuples() if it.freq}
        self.same(len(cells.columns), len(set(cells.columns)), "each column once")
        self.same({at: it for at, it in found.items() if it[1]}, wanted, "values and records")

    def test_columns_that_are_called_as_fields(self) -> None:
        frame = self.pandas.DataFrame({"status": list("AB") * 6, "value": [5] * 12})
        release = protect(frame, "value", [["status"]], rules=NONE)
        self.same(list(release.cells.status_code), ["Total", "A", "B"], "codes")
        self.same(list(release.cells.status), ["s"] * 3, "status")

    def test_two_columns_of_one_name(self) -> None:
        frame = self.pandas.DataFrame([["A", "B", 1]], columns=["region", "region", "turnover"])
        with self.assertRaises(Exception) as raised:
            protect(frame, "turnover", [["region"]])
        self.assertIn("two columns are called region", str(raised.exception))

    def test_other_frames_come_by_their_own_to_pandas(self) -> None:
        frame = self.pandas.DataFrame(even(4))
        Other = collections.namedtuple("Other", "to_pandas")
        release = protect(Other(lambda: frame), "turnover", [["region", "branch"]])
        self.same(type(release.cells), self.pandas.DataFrame, "cells")

    def test_numbers_of_columns_and_of_an_index(self) -> None:
        frame = self.pandas.DataFrame(even(4))
        frame.columns = [0, 1, 2]
        frame.index = range(50, 66)
        release = protect(frame, "2", [["0", "1"]], rules=NONE)
        self.same(release.cells.value[0], sum(even(4)["turnover"]), "the total")

    def test_the_frame_stays_as_it_is(self) -> None:
        frame = self.pandas.DataFrame(even(4))
        before = frame.copy()
        protect(frame, "turnover", [["region", "branch"]])
        self.assertTrue(frame.equals(before))


@unittest.skipIf(HAS_PANDAS, "pandas is installed for this Python")
class WithoutPandas(ApiCase):
    """What of this goes without pandas."""

    def test_lists_give_lists(self) -> None:
        release = protect(even(4), "turnover", [["region", "branch"]], rules=NONE)
        self.same(of_cells(release.cells, ("region", "branch")),
                  sums_of(even(4), ("region", "branch"), "turnover"), "cells")


if __name__ == "__main__":
    unittest.main()
