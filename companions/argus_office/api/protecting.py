"""One call from data to a protected release."""

import os
from typing import Mapping, Optional, Sequence, Union

from argus_office.api.faults import asking, fail
from argus_office.api.frames import Data, is_pandas
from argus_office.api.making import Place, Priors, Wanted, start
from argus_office.api.release import Release, job_of
from argus_office.programs import Programs

Path = Union[str, "os.PathLike[str]"]


def protect(
    data: Data,
    value: str,
    tables: Sequence[Sequence[str]],
    *,
    levels: Optional[Mapping[str, Sequence[int]]] = None,
    trees: Optional[Mapping[str, Path]] = None,
    parents: Optional[Mapping[str, str]] = None,
    weight: Optional[str] = None,
    rules: Optional[str] = None,
    method: Optional[str] = None,
    contributors: bool = False,
    apriori: Optional[Mapping[int, Priors]] = None,
    totals: Optional[Mapping[str, str]] = None,
    missing: Sequence[str] = (),
    round: Optional[Mapping[str, int]] = None,
    folder: Optional[Path] = None,
    program: Optional[str] = None,
    **more: object,
) -> Release:
    """Protects tables of sums, and has argus check them.

    `data` is the path of a CSV, a pandas frame, anything with `to_pandas` (as polars' and pyarrow's
    frames), or a mapping from names to columns. `value` is the column that is added up; each table
    is a list of columns, and `"industry:2"` is industry down to level 2. `weight` is the column of
    weights. Without `rules` and `method` they are start's: `P(10)|FREQ(3,30)`, an example, and
    `MOD()`.

    `levels` gives the bytes of a code for each level, `trees` the hierarchy file of a column,
    `parents` the column that has the group of each code, `totals` the code of a column's total,
    `apriori` for each table's number its a priori file or its lines, with commas between fields,
    and `missing` further words that mean no answer; None, NaN and empty text do anyway. `more` are
    other words of start, as `cost="FREQ"`, `steps=1000`, or for a CSV `encoding="latin-1"`.

    Floats are taken by the digits that Python shows, and nothing is rounded unless `round` gives
    the decimals of a column: then half away from zero. The files are made in `folder`, where
    nothing is overwritten, or in one that goes with the release. `program` is the path of argus.

    Raises StartRefused where the data or the words can't be taken; FileFault where a file can't be
    read, or is there already; JobRefused, CannotProtect, Undecided or OutOfMemory by what argus
    answers, with the files left in `folder`; NotAccepted where its check does; and ProgramMissing
    where there is no argus.
    """
    wanted = Wanted(
        value, tables, weight, levels or {}, trees or {}, parents or {}, totals or {}, missing,
        apriori or {}, contributors, round or {}, {"rule": rules, "method": method, **more},
    )
    is_frame = is_pandas(data) or hasattr(data, "to_pandas")
    programs = Programs(program)
    place = Place(folder)
    said = start(place, data, wanted)
    release = Release(job_of(place.folder, place.files(), value, tables), programs, is_frame)
    release.place, release.said = place, said
    run(release, place)
    return release


def run(release: Release, place: Place) -> None:
    """Runs the job of a release, and has argus check what it wrote."""
    job = release.job
    with asking():
        said = release.programs.ask("run", job.file, folder=job.folder)
    if said.status != 0:
        fail(said, job.file, job.folder)
    release.answer = said.out.strip()
    release.files = place.files()
    release.check()
