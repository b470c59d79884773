"""The folder of a job, and the call of start that makes its files there."""

import os
import re
import shutil
import tempfile
import weakref
from typing import Dict, List, Mapping, NamedTuple, Optional, Sequence, Union

from argus_office.api.faults import ArgusError, FileFault, StartRefused, asking, fail_by
from argus_office.api.frames import Columns, Data, columns_of, write_csv
from argus_office.programs import companion

# A depth behind the name of a column, as in "industry:2".
DEPTH = re.compile(r":[0-9]{1,3}\Z")
# What no name of a column can have, since the words of start have it between names.
BETWEEN_NAMES = ',="\r\n'
# The file in which columns of a frame are written for start.
CSV = "data.csv"
# An a priori file: its path, or its lines.
Priors = Union[str, "os.PathLike[str]", Sequence[str]]


class Wanted(NamedTuple):
    """What start is asked for: the arguments of `protect` under their names."""

    value: str
    tables: Sequence[Sequence[str]]
    weight: Optional[str]
    levels: Mapping[str, Sequence[int]]
    trees: Mapping[str, Union[str, "os.PathLike[str]"]]
    parents: Mapping[str, str]
    totals: Mapping[str, str]
    missing: Sequence[str]
    apriori: Mapping[int, Priors]
    contributors: bool
    rounding: Mapping[str, int]
    more: Mapping[str, object]

    def used(self, columns: Columns) -> List[str]:
        """The columns of a frame that the job needs, each once."""
        named = [column_of(it, columns) for table in self.tables for it in table]
        named += [it for pair in self.parents.items() for it in pair]
        named += [self.value] + ([self.weight] if self.weight else [])
        return list(dict.fromkeys(named))


class Place:
    """The folder in which a job's files are made: the caller's, or one that goes with this object.

    Nothing that is there is overwritten.
    """

    def __init__(self, folder: Union[None, str, "os.PathLike[str]"]) -> None:
        """Raises FileFault where the folder can't be made."""
        own = tempfile.mkdtemp(prefix="argus-") if folder is None else None
        if own:
            weakref.finalize(self, shutil.rmtree, own, True)
        self.folder = own or os.path.abspath(os.fspath(folder or "."))
        self.is_new = not os.path.isdir(self.folder)
        try:
            os.makedirs(self.folder, exist_ok=True)
            self.before = set(os.listdir(self.folder))
        except (OSError, ValueError) as fault:
            raise FileFault("%s: %s" % (ascii(self.folder), fault)) from fault

    def path(self, name: str) -> str:
        """The path of a new file. Raises FileFault where one of this name is there already."""
        path = os.path.join(self.folder, name)
        if os.path.lexists(path):
            raise FileFault("%s is there already: give another folder" % path)
        return path

    def copied(self, source: Union[str, "os.PathLike[str]"], name: str) -> str:
        """The path of a file in this folder: of the file itself where it lies here, or of a copy.

        Raises FileFault where it can't be read.
        """
        given = os.path.abspath(os.fspath(source))
        if os.path.dirname(given) == self.folder:
            return given
        path = self.path(name)
        try:
            shutil.copyfile(given, path)
        except (OSError, ValueError) as fault:
            why = getattr(fault, "strerror", None) or fault
            raise FileFault("%s: %s" % (given, why)) from fault
        return path

    def files(self) -> List[str]:
        """The names of the files that were made here since."""
        return sorted(set(os.listdir(self.folder)) - self.before)

    def take_back(self) -> None:
        """Takes away what was made here, and the folder where it was made too."""
        for name in self.files():
            os.unlink(os.path.join(self.folder, name))
        if self.is_new:
            os.rmdir(self.folder)


def start(place: Place, data: Data, wanted: Wanted) -> List[str]:
    """Has start make the files of a job in a folder. Gives what it says of the data, line by line.

    Raises StartRefused where it takes the data or the words not, or FileFault where a file can't be
    read or written; then nothing is left of what was made.
    """
    try:
        words = [csv_for(place, data, wanted), "--out", place.folder, *words_of(place, wanted)]
        with asking():
            said = companion("start", *words)
        if said.status != 0:
            fail_by(StartRefused if said.status in (1, 2) else ArgusError, said, "start")
    except BaseException:
        place.take_back()
        raise
    return said.out.splitlines()


def csv_for(place: Place, data: Data, wanted: Wanted) -> str:
    """The path of the CSV: the one that is given, or one in the folder with a frame's columns."""
    columns = columns_of(data)
    check_names(wanted)
    if columns is None:
        if wanted.rounding:
            raise StartRefused("round is for the columns of a frame, not for a CSV")
        return os.path.abspath(os.fspath(data))
    path = place.path(CSV)
    write_csv(columns, wanted.used(columns), wanted.rounding, path)
    return path


def check_names(wanted: Wanted) -> None:
    """Refuses tables that are no lists of columns, and names that start can't tell apart."""
    if isinstance(wanted.tables, str) or any(isinstance(it, str) for it in wanted.tables):
        raise StartRefused(
            'tables is a list with a list of columns for each table, as [["region", "size"]]'
        )
    names = [it for table in wanted.tables for it in table] + [wanted.value, wanted.weight or ""]
    for name in [*names, *wanted.parents, *wanted.parents.values()]:
        if not isinstance(name, str):
            raise StartRefused("the column %s: names of columns are texts" % ascii(name))
        if any(mark in name for mark in BETWEEN_NAMES):
            what = "the column %s: a name has no comma, equals sign, quote or line break here"
            raise StartRefused(what % ascii(name))


def column_of(variable: str, columns: Columns) -> str:
    """The column of a variable: without its depth, unless a column is called so."""
    return variable if variable in columns else DEPTH.sub("", variable)


def words_of(place: Place, wanted: Wanted) -> List[str]:
    """The words of start but for the CSV; hierarchy and a priori files come into the folder."""
    words = ["--value=" + wanted.value]
    words += ["--table=" + ",".join(table) for table in wanted.tables]
    words += ["--weight=" + wanted.weight] if wanted.weight else []
    trees = enumerate(wanted.trees.items(), 1)
    named: Dict[str, Mapping[str, str]] = {
        "levels": {name: ",".join(map(str, each)) for name, each in wanted.levels.items()},
        "tree": {name: place.copied(path, "tree%d.hrc" % k) for k, (name, path) in trees},
        "parent": wanted.parents,
        "total": wanted.totals,
        "apriori": {str(k): priors_in(place, k, it) for k, it in wanted.apriori.items()},
    }
    for word, values in named.items():
        words += ["--%s=%s=%s" % (word, name, text) for name, text in values.items()]
    words += ["--missing=" + it for it in wanted.missing]
    words += ["--contributors"] if wanted.contributors else []
    more = {name: it for name, it in wanted.more.items() if it is not None}
    return words + ["--%s=%s" % (name, it) for name, it in more.items()]


def priors_in(place: Place, table: int, priors: Priors) -> str:
    """The path of a table's a priori file in the folder, which is written where lines are given.

    Raises StartRefused where the table's number is none, or a line isn't text.
    """
    if not isinstance(table, int):
        raise StartRefused("apriori: %s is no number of a table" % ascii(table))
    name = "apriori%d.hst" % table
    if isinstance(priors, (str, os.PathLike)):
        return place.copied(priors, name)
    try:
        raw = "".join(line + "\n" for line in priors).encode("utf-8")
    except (TypeError, UnicodeEncodeError) as fault:
        raise StartRefused("apriori: the lines of table %d are no texts" % table) from fault
    path = place.path(name)
    with open(path, "xb") as file:
        file.write(raw)
    return path
