"""Lines for a priori files that mend an answer: as they are printed, and as files of their own
beside the office's, with a job that takes them."""

import os
import re
from typing import Dict, List, NamedTuple

from argus_office.reading.arguments import Prior
from argus_office.reading.files import content, lines_of, text_of
from argus_office.reading.job import Job


class PriorLines(NamedTuple):
    """The lines for one table: where they go in words, the table from 1, what separates fields, the
    lines, and which lines of the office's own file, from 1, they replace."""

    where: str
    table: int
    separator: bytes
    lines: List[bytes]
    replaced: List[int]

    def rows(self) -> List[str]:
        """What is printed."""
        return [self.where, *map(text_of, self.lines)] if self.lines else []


class Unwritten(Exception):
    """Why nothing is written, in one line."""


def mended_files(job: Job, given: List[PriorLines]) -> Dict[bytes, bytes]:
    """The files of the mended job, by their names: an a priori file for each table that gets lines,
    with the office's own lines first, and the job. Raises Unread."""
    stem = job.name[:-4] if job.name.endswith(b".job") else job.name
    stated = {it.table: (line.number, it) for line, it in job.priors()}
    names = {it.table: stem + b"_mended_%d.hst" % it.table for it in given}
    files = {}
    for it in given:
        own = own_lines(stated[it.table][1], it.replaced) if it.table in stated else []
        files[beside(job, names[it.table])] = b"".join(line + b"\n" for line in [*own, *it.lines])
    commands = {
        it.table: b'<APRIORI> "%s",%d,"%s"' % (os.path.basename(names[it.table]), it.table,
                                               it.separator)
        for it in given
    }
    at = {number: table for table, (number, _) in stated.items() if table in names}
    lines = [
        commands[at[line.number]] if line.number in at else line.raw.rstrip(b"\r")
        for line in job.lines
    ]
    while lines and not lines[-1].strip():
        lines.pop()
    lines += [it for table, it in sorted(commands.items()) if table not in at.values()]
    files[stem + b"_mended.job"] = b"".join(it + b"\n" for it in lines)
    return files


def beside(job: Job, name: bytes) -> bytes:
    """A name in the folder in which argus is called, which the job's names count from."""
    return os.path.basename(name) if os.path.dirname(job.name) else name


def own_lines(prior: Prior, replaced: List[int]) -> List[bytes]:
    """The lines of the office's own file that stay."""
    lines = lines_of(content(prior.file))
    return [it for k, it in enumerate(lines, 1) if k not in replaced and it.strip()]


def write(job: Job, given: List[PriorLines]) -> List[str]:
    """Writes the mended job and its files, and gives their names. Nothing is replaced. Raises
    Unread, and Unwritten where a file is there or can't be written; then none is left."""
    if not any(it.lines for it in given):
        raise Unwritten("There are no lines to write: these are for `cannot protect .. from row`")
    written: List[bytes] = []
    try:
        for name, data in mended_files(job, given).items():
            with open(name, "xb") as file:
                written.append(name)
                file.write(data)
    except OSError as fault:
        for name in written:
            os.unlink(name)
        reason = "it is there already" if isinstance(fault, FileExistsError) else fault.strerror
        raise Unwritten("%s isn't written: %s" % (shown_path(fault), reason)) from fault
    return [text_of(it) for it in written]


def shown_path(fault: OSError) -> str:
    """The file of a fault, in one line."""
    name = fault.filename
    text = text_of(name) if isinstance(name, bytes) else str(name)
    return re.sub(r"[^ -~\u00a0-\ud7ff]", "?", text)
