"""A release, and what can be asked of it."""

import contextlib
import importlib
import os
import shutil
import tempfile
from typing import Any, Dict, Iterator, List, NamedTuple, Optional, Sequence, Tuple, Union

from argus_office.api.faults import (
    ArgusError,
    FileFault,
    NotAccepted,
    PageRefused,
    asking,
    explained,
    fail,
    fail_by,
)
from argus_office.api.listing import Cell, cells_of, flat_row, flat_table, intervals_of, table_of
from argus_office.api.making import DEPTH, Place
from argus_office.programs import Programs, Said, companion
from argus_office.reading.files import Unread, content, text_of
from argus_office.reading.job import Job as JobFile


class Job(NamedTuple):
    """A job that start made: its folder and file, and what its tables are called."""

    folder: str
    file: str
    value: str
    # For each table the columns of the data, the job's names for these, and the file of the table.
    columns: List[Tuple[str, ...]]
    names: List[Tuple[str, ...]]
    tables: List[str]

    def column_names(self) -> Dict[str, str]:
        """The column of the data for each of the job's names."""
        return {
            name: column
            for names, columns in zip(self.names, self.columns)
            for name, column in zip(names, columns)
        }


def job_of(
    folder: str, files: Sequence[str], value: str, tables: Sequence[Sequence[str]]
) -> Job:
    """The job among the files that start made."""
    file = next(it for it in files if it.endswith(".job"))
    with reading():
        source = JobFile(os.fsencode(os.path.join(folder, file)))
    names = [tuple(map(text_of, it.variables)) for _, it in source.tables()]
    return Job(
        folder=folder,
        file=file,
        value=value,
        columns=[
            tuple(plain_column(it, name) for it, name in zip(table, words))
            for table, words in zip(tables, names)
        ],
        names=names,
        tables=[text_of(it.file) for _, it in source.outputs()],
    )


def plain_column(variable: str, name: str) -> str:
    """The column of a variable: one that the job calls so with its colon has no depth."""
    return variable if variable == name else DEPTH.sub("", variable)


@contextlib.contextmanager
def reading() -> Iterator[None]:
    """Turns the fault of a file that can't be read into FileFault."""
    try:
        yield
    except Unread as fault:
        raise FileFault(fault.line()) from fault


def text_in(path: str) -> str:
    """The text of a file that start or argus wrote. Raises FileFault where it can't be read."""
    with reading():
        return text_of(content(os.fsencode(path), None))


class Release:
    """A release that argus made and accepted, in a folder.

    Where no folder was given, the files go with this object; `save` keeps them. `answer` is what
    argus said of its run, `said` what start said of the data, `files` are the names of the files.
    Lists of cells, intervals and tables are pandas frames where a frame came in, with the same
    exact values.
    """

    def __init__(self, job: Job, programs: Programs, is_frame: bool = False) -> None:
        self.job = job
        self.programs = programs
        self.is_frame = is_frame
        self.answer = ""
        self.said: List[str] = []
        self.files: List[str] = []
        # (where no folder was given, it goes when nobody holds its place any more)
        self.place: Optional[Place] = None

    def __repr__(self) -> str:
        return "<argus release in %s: %s>" % (self.job.folder, self.answer)

    @property
    def tables(self) -> List[Any]:
        """The tables as they are published: a Table or a frame each. None is a hidden value."""
        job, found = self.job, []
        for file, columns in zip(job.tables, job.columns):
            text = text_in(os.path.join(job.folder, file))
            table = table_of(text, columns, job.value)
            found.append(frame(flat_table(table)) if self.is_frame else table)
        return found

    @property
    def cells(self) -> Any:
        """The cells with true values, for the office alone: a list of Cell, or a frame.

        Raises NotAccepted, or what else `cells` answers, where the release isn't as it was.
        """
        return self._rows(self._listed())

    def intervals(self) -> Any:
        """The range in which a reader can place each hidden cell: a list of Interval, or a frame.

        Raises JobRefused for a rounded release, which has none; Undecided and others as argus
        answers.
        """
        with tempfile.TemporaryDirectory(prefix="argus-") as room:
            path = os.path.join(room, "intervals.csv")
            self._ask("intervals", self.job.file, path)
            return self._rows(intervals_of(text_in(path), self._listed()))

    def check(self) -> bool:
        """Whether argus accepts the release as it stands in its folder now: True.

        Raises NotAccepted where it doesn't, and else what argus answers.
        """
        self._ask("check", self.job.file)
        return True

    def explain(self) -> List[str]:
        """What the office may not have meant, a line each; mostly nothing."""
        with asking():
            return explained(self.job.file, [self.answer], self.job.folder)

    def page(
        self,
        path: Union[str, "os.PathLike[str]"],
        public: bool = False,
        title: Optional[str] = None,
    ) -> str:
        """Writes one page (HTML) of the release; with `public` one for everyone. Gives its path.

        Raises PageRefused where the file is another's, or can't be written, and NotAccepted where
        argus doesn't accept the release.
        """
        out = os.path.abspath(os.fspath(path))
        words = [self.job.file, out, "--argus", self.programs.argus]
        words += (["--public"] if public else []) + (["--title", title] if title else [])
        with asking():
            said = companion("page", *words, folder=self.job.folder)
        if said.status != 0:
            fail_by(NotAccepted if said.status == 3 else PageRefused, said, "page")
        return out

    def save(self, folder: Union[str, "os.PathLike[str]"]) -> str:
        """Copies the files of the release into a folder, and gives its path.

        Raises FileFault where one of them is there already, and copies none then, or where one
        can't be written.
        """
        where = os.path.abspath(os.fspath(folder))
        taken = [it for it in self.files if os.path.lexists(os.path.join(where, it))]
        if taken:
            raise FileFault("%s is there already" % os.path.join(where, taken[0]))
        try:
            os.makedirs(where, exist_ok=True)
            for name in self.files:
                shutil.copyfile(os.path.join(self.job.folder, name), os.path.join(where, name))
        except OSError as fault:
            raise FileFault("%s: %s" % (fault.filename or where, fault.strerror)) from fault
        return where

    def _listed(self) -> List[Cell]:
        with asking():
            said = self.programs.cells(self.job.file, "--released", folder=self.job.folder)
        if said.status != 0:
            fail(said, self.job.file, self.job.folder)
        return cells_of(said.out, self.job.column_names())

    def _rows(self, rows: Sequence[Any]) -> Any:
        return frame([flat_row(it) for it in rows]) if self.is_frame else list(rows)

    def _ask(self, *words: str) -> Said:
        with asking():
            said = self.programs.ask(*words, folder=self.job.folder)
        if said.status != 0:
            fail(said, self.job.file, self.job.folder)
        return said


def frame(content: Any) -> Any:
    """A pandas frame. Raises ArgusError where the frame that came in brought no pandas with it."""
    try:
        return importlib.import_module("pandas").DataFrame(content)
    except ImportError as fault:
        raise ArgusError("pandas isn't there: %s" % fault) from fault
