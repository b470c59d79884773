"""Columns of data as a CSV: from a pandas frame, from anything that has to_pandas, or from a
mapping of lists."""

import csv
import datetime
import decimal
import os
from typing import Any, Dict, List, Mapping, Optional, Sequence

from argus_office.api.faults import FileFault, StartRefused

# The data as it may come: a path of a CSV, a frame, or a mapping from names to sequences.
Data = Any
Columns = Mapping[str, Sequence[object]]
# Values that pandas has for what is missing.
MISSING = ("NAType", "NaTType")
# Digits enough for any number that start takes, and for the decimals of the longest.
PRECISION = 400


def is_pandas(data: Data) -> bool:
    """Whether this is a pandas frame. pandas isn't imported for the question."""
    return any(
        it.__name__ == "DataFrame" and it.__module__.split(".")[0] == "pandas"
        for it in type(data).__mro__
    )


def columns_of(data: Data) -> Optional[Columns]:
    """The columns of data by their names, or None for a path of a CSV.

    Raises StartRefused for anything else, and where two columns have one name.
    """
    if isinstance(data, (str, os.PathLike)):
        return None
    if not is_pandas(data) and hasattr(data, "to_pandas"):
        data = data.to_pandas()
    if is_pandas(data):
        pairs = [(str(it), values_of(data.iloc[:, at])) for at, it in enumerate(data.columns)]
    elif isinstance(data, Mapping):
        pairs = [(str(name), listed(str(name), values)) for name, values in data.items()]
    else:
        raise StartRefused("the data is no frame, no mapping of columns, and no path of a CSV")
    found: Dict[str, Sequence[object]] = {}
    for name, values in pairs:
        if name in found:
            raise StartRefused("two columns are called %s: give one of them another name" % name)
        found[name] = values
    return found


def listed(name: str, values: Any) -> List[object]:
    """The values of a column of a mapping. Raises StartRefused where they are no sequence."""
    try:
        return list(values)
    except TypeError as fault:
        raise StartRefused("the column %s is no sequence of values" % name) from fault


def values_of(series: Any) -> List[object]:
    """The values of a pandas column as plain objects; what is missing is None."""
    missing = series.isna().tolist()
    return [None if is_lost else it for it, is_lost in zip(series.tolist(), missing)]


def is_missing(value: object) -> bool:
    """Whether a value says that there is none: None, NaN, NaT, or pandas' NA."""
    if isinstance(value, float):
        return value != value
    if isinstance(value, decimal.Decimal):
        return value.is_nan()
    return value is None or type(value).__name__ in MISSING


def text_of(value: object) -> str:
    """A value as the text of a field, to its last digit; what is missing is empty."""
    if isinstance(value, str):
        return value
    if is_missing(value):
        return ""
    if isinstance(value, float):
        # (a float of numpy is one too, and has another repr; minus zero is zero)
        text = float.__repr__(value) if value else "0"
        return text[:-2] if text.endswith(".0") else text
    if isinstance(value, decimal.Decimal):
        return format(value if value else value.copy_abs(), "f")
    if isinstance(value, datetime.datetime):
        is_day = value.time() == datetime.time() and value.tzinfo is None
        return value.date().isoformat() if is_day else value.isoformat(" ")
    return str(value)


def rounded(text: str, decimals: int, column: str) -> str:
    """A number's text rounded to so many decimals, half away from zero; empty text stays.

    Raises StartRefused where it is no number.
    """
    if not text:
        return text
    try:
        with decimal.localcontext() as context:
            context.prec = PRECISION
            unit = decimal.Decimal(1).scaleb(-decimals)
            found = decimal.Decimal(text).quantize(unit, decimal.ROUND_HALF_UP)
            return format(found if found else found.copy_abs(), "f")
    except (decimal.InvalidOperation, TypeError, OverflowError, ValueError) as fault:
        what = "column %s: %s isn't a number that can be rounded" % (column, text[:60])
        raise StartRefused(what) from fault


def write_csv(
    columns: Columns, used: Sequence[str], rounding: Mapping[str, int], path: str
) -> None:
    """Writes the columns that are used, in UTF-8, into a file that isn't there yet.

    `rounding` says to how many decimals a column is rounded; no other is. Raises StartRefused where
    a column isn't there, where columns aren't equally long, or where one has text that isn't UTF-8.
    """
    for name in [*used, *rounding]:
        if name not in columns:
            raise StartRefused("there is no column %s; there are %s" % (name, ", ".join(columns)))
    texts = [[text_of(value) for value in columns[name]] for name in used]
    if len({len(column) for column in texts}) > 1:
        raise StartRefused("the columns aren't equally long")
    for at, name in enumerate(used):
        if name in rounding:
            texts[at] = [rounded(text, rounding[name], name) for text in texts[at]]
    try:
        with open(path, "x", encoding="utf-8", newline="") as file:
            rows = csv.writer(file, lineterminator="\n")
            rows.writerow(used)
            rows.writerows(zip(*texts))
    except UnicodeEncodeError as fault:
        raise StartRefused("a text of the data can't be written in UTF-8: %s" % fault) from fault
    except OSError as fault:
        raise FileFault("%s: %s" % (path, fault.strerror)) from fault
