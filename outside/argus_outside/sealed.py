"""Compares the files of an accepted release with its seal, where one lies beside the job (manual:
Seal a release)."""
import hashlib
import os
import re
from typing import Dict, List

from argus_outside.job import read_job
from argus_outside.metadata import bind, read_metadata
from argus_outside.texts import NotAccepted, Unreadable, lines, printable, read_file

MARK = b"# argus seal 1"
# A line that names a file, as sha256sum writes it: with \ in front where the name has one, which is
# doubled then.
LINE = re.compile(rb"(\\?)([0-9a-f]{64})  (.+)")


def seal_of(job: bytes) -> bytes:
    """The name of a job's seal."""
    return re.sub(rb"\.job\Z", b"", job) + b".seal"


def compare(job: bytes) -> str:
    """In words, that every file of the job is as its seal says; nothing where there is no seal.

    Raises the first fault.
    """
    name = seal_of(job)
    if not os.path.lexists(name):
        return ""
    sums = _read(name)
    for file in _files(job):
        if file not in sums:
            raise NotAccepted("NotSealed",
                              "the seal %s has no %s" % (printable(name), printable(file)),
                              "not sealed")
    for file, expected in sums.items():
        if _sum(file) != expected:
            words = "%s isn't the file that %s names" % (printable(file), printable(name))
            raise NotAccepted("OtherFile", words, "not sealed")
    return "sealed: %d files are those that %s names" % (len(sums), printable(name))


def _read(name: bytes) -> Dict[bytes, str]:
    """The SHA-256 of each file that a seal names."""
    found = {}
    for number, line in enumerate(lines(read_file(name, "seal")), 1):
        matched = LINE.fullmatch(line)
        if matched:
            file = matched[3].replace(b"\\\\", b"\\") if matched[1] else matched[3]
            found[file] = matched[2].decode("ascii")
        elif number == 1 and line != MARK or line and not line.startswith(b"#"):
            raise Unreadable("seal", number, "BadLine", "no line of a seal")
    return found


def _files(job: bytes) -> List[bytes]:
    """All files that a job reads or writes, itself first."""
    read = read_job(read_file(job, "job"))
    named = [file for _, file in read.files.values()]
    spanning = bind(read, read_metadata(read_file(read.files["OPENMETADATA"][1],
                                                  "metadata"))).spanning
    lists = [file for variable in spanning for file in (variable.codes, variable.hierarchy) if file]
    written = [file for _, file in read.written()]
    return list(
        dict.fromkeys([job] + named + lists + [prior.file for prior in read.priors] + written))


def _sum(file: bytes) -> str:
    """The SHA-256 of a file; nothing where it can't be read."""
    found = hashlib.sha256()
    try:
        with open(file, "rb") as source:
            for part in iter(lambda: source.read(1 << 20), b""):
                found.update(part)
    except (OSError, ValueError):
        return ""
    return found.hexdigest()
