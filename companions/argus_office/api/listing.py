"""The listing of a release's cells, and its tables, as Python values. Amounts are exact."""

from decimal import Decimal
from fractions import Fraction
from typing import Any, Dict, List, Mapping, NamedTuple, Optional, Sequence, Tuple

from argus_office.reading.tables import Listing, rows_of


class Cell(NamedTuple):
    """A cell of a release, with its true value: for the office alone.

    `codes` gives for each column its code, of those that the cell isn't split by the total's.
    `freq` is the number of records. `status` is u for sensitive, x for hidden for others' sake, z
    for always shown, and else s for shown; `rules` says what named a sensitive cell, `origin` how a
    hidden one came to be hidden, `up` and `down` are its protection levels. `published` is what the
    tables show, None for a hidden cell.
    """

    number: int
    tables: Tuple[int, ...]
    codes: Dict[str, str]
    value: Decimal
    freq: int
    status: str
    rules: Tuple[str, ...]
    origin: str
    up: Decimal
    down: Decimal
    published: Optional[Decimal]


class Interval(NamedTuple):
    """The range in which a reader can place a hidden cell. `high` is None where nothing bounds it;
    an end is a fraction, since not each one has a last decimal."""

    number: int
    codes: Dict[str, str]
    value: Decimal
    low: Fraction
    high: Optional[Fraction]


class Table(NamedTuple):
    """A table as it is published: for each place its codes, and its value, None where it is
    hidden."""

    variables: Tuple[str, ...]
    response: str
    rows: List[Tuple[Tuple[str, ...], Optional[Decimal]]]


def table_of(text: str, variables: Sequence[str], response: str) -> Table:
    """A published table."""
    body = rows_of(text)[1:]
    shown = [(tuple(row[:-1]), None if row[-1] == "x" else Decimal(row[-1])) for row in body]
    return Table(tuple(variables), response, shown)


def status_of(status: str, release: str) -> str:
    """The status of a cell in one letter."""
    if status == "primary":
        return "u"
    if release == "hidden":
        return "x"
    return "z" if status == "fixed" else "s"


def cells_of(text: str, names: Mapping[str, str]) -> List[Cell]:
    """The cells of a listing with the release; `names` gives for a job's name of a variable that of
    the column."""
    listing = Listing(rows_of(text))
    variables = [names.get(name, name) for name in listing.variables]
    found = []
    for row in listing.rows:
        fields = {name: row[place] for name, place in listing.at.items()}
        found.append(cell_of(row, dict(zip(variables, listing.codes(row))), fields))
    return found


def cell_of(row: Sequence[str], codes: Dict[str, str], fields: Mapping[str, str]) -> Cell:
    """One line of a listing; `fields` are those behind its codes."""
    release = fields["release"]
    shown = fields["value"] if release == "shown" else release
    return Cell(
        number=int(row[0]),
        tables=tuple(int(it) for it in row[1].split()),
        codes=codes,
        value=Decimal(fields["value"]),
        freq=int(fields["records"]),
        status=status_of(fields["status"], release),
        rules=tuple(fields["rules"].split()),
        origin=fields["origin"],
        up=Decimal(fields["up"]),
        down=Decimal(fields["down"]),
        published=None if release == "hidden" else Decimal(shown),
    )


def intervals_of(text: str, cells: Sequence[Cell]) -> List[Interval]:
    """The ranges of the hidden cells, by the file that argus writes, whose ends are in units of the
    last decimal."""
    unit = 10 ** len(str(cells[0].value).partition(".")[2])
    found = []
    for number, low, high in rows_of(text)[1:]:
        cell = cells[int(number)]
        top = None if high == "open" else Fraction(high) / unit
        found.append(Interval(cell.number, cell.codes, cell.value, Fraction(low) / unit, top))
    return found


def flat_row(row: Any) -> Dict[str, Any]:
    """A cell or an interval as a line of a frame, with a column for each code. A column of data
    that is called as a field is gets `_code` behind its name."""
    fields: Dict[str, Any] = row._asdict()
    codes: Dict[str, str] = fields.pop("codes")
    line: Dict[str, Any] = {
        name + "_code" if name in fields else name: code for name, code in codes.items()
    }
    for name, it in fields.items():
        line[name] = " ".join(map(str, it)) if isinstance(it, tuple) else it
    return line


def flat_table(table: Table) -> Dict[str, List[Any]]:
    """A table as the columns of a frame; the response's may be called as a variable is."""
    columns: Dict[str, List[Any]] = {
        name: [codes[at] for codes, _ in table.rows] for at, name in enumerate(table.variables)
    }
    columns[table.response] = [shown for _, shown in table.rows]
    return columns
