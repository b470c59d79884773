"""Where the files go: their names, and how they come to their places. Nothing of the office's is
written over.
"""

import os
import shutil
from typing import List, Sequence

from argus_office.starting.names import plain
from argus_office.starting.refusals import Refusal, shown


def stem_of(path: str) -> str:
    """The name of the files, from that of the CSV: letters of ASCII."""
    name = os.path.basename(path)
    root, end = os.path.splitext(name)
    stem = root if end.lower() in (".csv", ".txt", ".tsv") else name
    return plain(stem, 120).strip(".-") or "data"


def output_names(stem: str, count: int) -> List[str]:
    """The files of the tables. They aren't named as the CSV is, which argus would write over."""
    return ["%s_table%s.csv" % (stem, k + 1 if count > 1 else "") for k in range(count)]


def file_name(path: str) -> str:
    """The name of a file as a job can have it."""
    if not path.isascii() or not path.isprintable() or '"' in path or len(path) > 255:
        raise Refusal(
            "%s can't stand in a job" % shown(path),
            "Names of files are 1 to 255 marks of ASCII without double quotes: rename it"
        )
    return path


def check_places(out: str, names: Sequence[str], inputs: Sequence[str], may_replace: bool) -> None:
    """No file that is written, now or by the job, is an input; nor, without --force, is there
    already.
    """
    if os.path.exists(out) and not os.path.isdir(out):
        raise Refusal("%s isn't a folder" % shown(out, 80), "Give another --out")
    for name in names:
        path = os.path.normpath(os.path.join(out, name))
        for given in inputs:
            if os.path.exists(path) and os.path.exists(given) and os.path.samefile(path, given):
                raise Refusal(
                    "%s is an input, and would be written over" % shown(path, 80),
                    "Give another folder by --out, or rename the input"
                )
        is_plain = os.path.isfile(path) or os.path.islink(path)
        if os.path.lexists(path) and not (may_replace and is_plain):
            raise Refusal(
                "%s is there already" % shown(path, 80),
                "Give another folder by --out, or --force to have it replaced"
            )


def put(folder: str, out: str, names: Sequence[str], may_replace: bool) -> None:
    """Moves the files to their places.

    Without leave to replace, a file that has come there meanwhile stays, and all others go again.
    """
    done: List[str] = []
    try:
        for name in names:
            place(os.path.join(folder, name), os.path.join(out, name), may_replace)
            done.append(name)
    except BaseException:
        if not may_replace:
            for name in done:
                os.unlink(os.path.join(out, name))
        raise


def place(made: str, path: str, may_replace: bool) -> None:
    """Moves one file to its place."""
    if may_replace:
        os.replace(made, path)
        return
    try:
        os.link(made, path)
    except FileExistsError as fault:
        raise Refusal(
            "%s is there already" % shown(path, 80),
            "Give another folder by --out, or --force to have it replaced"
        ) from fault
    except OSError:
        # Some folders, as on sticks and shares, have no second names of files.
        copy_new(made, path)


def copy_new(made: str, path: str) -> None:
    """Copies a file to a place where none is; a copy that was broken off goes again."""
    with open(path, "xb") as there, open(made, "rb") as here:
        try:
            shutil.copyfileobj(here, there)
            there.flush()
        except BaseException:
            os.unlink(path)
            raise
