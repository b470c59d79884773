"""argus from Python: a data frame or a CSV goes in, protected tables come out.

    from argus_office.api import protect

    release = protect("firms.csv", value="turnover", tables=[["region", "branch"]])
    release.tables[0].rows, release.cells, release.intervals()
    release.page("firms.html")

Everything is done by the programs `argus` and `cells` and by the companions `start`, `explain` and
`page`; nothing of protection is computed here. pandas is used where a pandas frame comes in, and
isn't needed otherwise."""

from argus_office.api.faults import (
    ArgusError,
    CannotProtect,
    FileFault,
    JobRefused,
    NotAccepted,
    OutOfMemory,
    PageRefused,
    ProgramMissing,
    StartRefused,
    Undecided,
)
from argus_office.api.listing import Cell, Interval, Table
from argus_office.api.protecting import protect
from argus_office.api.release import Release

__all__ = [
    "ArgusError",
    "CannotProtect",
    "Cell",
    "FileFault",
    "Interval",
    "JobRefused",
    "NotAccepted",
    "OutOfMemory",
    "PageRefused",
    "ProgramMissing",
    "Release",
    "StartRefused",
    "Table",
    "Undecided",
    "protect",
]
