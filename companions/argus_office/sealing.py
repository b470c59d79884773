"""Seals a release: writes down of which files it is, by their SHA-256.

usage: argus seal JOB [--force] [--argus PROGRAM]
       argus seal --check JOB

It works in the current folder, as argus does, after `argus run JOB`. It asks argus whether it
accepts the release, and where it does, writes the date, the version of argus, the command, the
answer, and the SHA-256 of every file that the job reads or writes into a file with the job's name
and `.seal`. An earlier seal stays as it is without --force, and any other file of that name always.
--check reads the seal and compares: it says `sealed`, or the first file that is another one.
PROGRAM is the built argus; without it the launcher beside this file is called.

A seal is plain text. Lines that begin with # say how it was made; each other line is a SHA-256, two
blanks and the name of a file, so that `sha256sum -c JOB.seal` compares the files too. Nothing here
is proved, and a seal keeps nothing from being changed: it shows that something was, to whoever has
kept the seal apart.

The status is 0 where the seal was written or the files are as sealed, 1 for the usage line, 2 where
something can't be read or written, 3 where a file isn't as sealed, and else that of argus.
"""

import datetime
import hashlib
import os
import re
import sys
from typing import Dict, List, Optional, Tuple

from argus_office.programs import ProgramFault, Programs
from argus_office.reading.files import (
    Unread, bytes_of, content, lines_of, marked, opened, text_of
)
from argus_office.reading.job import Job, inputs, names_of, outputs

USAGE = "usage: argus seal JOB [--force] [--argus PROGRAM] | argus seal --check JOB"
MARK = "# argus seal 1"
# A line of a seal that names a file, as sha256sum writes it: with \ in front where the name has
# one, which is doubled then.
SEALED = re.compile(r"(\\?)([0-9a-f]{64})  (.+)")


class Stop(Exception):
    """What ends this call: the line to say, and the status."""
    def __init__(self, text: str, status: int = 2) -> None:
        super().__init__(text)
        self.status = status


def sum_of(name: str) -> str:
    """The SHA-256 of a file. Raises Stop where it can't be read."""
    found = hashlib.sha256()
    try:
        with opened(os.fsencode(name)) as file:
            for part in iter(lambda: file.read(1 << 20), b""):
                found.update(part)
    except Unread as fault:
        raise Stop(fault.line()) from fault
    except OSError as fault:
        raise Stop("%s: %s" % (name, fault.strerror)) from fault
    return found.hexdigest()


# ---- which files a release is of


def files_of(name: str) -> Tuple[List[str], List[str]]:
    """What the job reads, itself first, and what it writes; each file once. Of the variables those
    that span a table have files: those of the others aren't read."""
    try:
        job = Job(os.fsencode(name))
        has_metadata = job.file("OPENMETADATA") is not None
        spanning = names_of(job, job.metadata()).spanning if has_metadata else []
    except Unread as fault:
        raise Stop(fault.line()) from fault
    named, priors = inputs(job), [it.file for _, it in job.priors()]
    listed = [it for variable in spanning for it in variable.files()]
    read = named[:len(named) - len(priors)] + listed + priors
    found = [name, *map(text_of, read)]
    return list(dict.fromkeys(found)), list(dict.fromkeys(map(text_of, outputs(job))))


def sums_of(job: str) -> Tuple[Dict[str, str], Dict[str, str]]:
    """The SHA-256 of each file that a job reads, and of each that it writes."""
    read, written = files_of(job)
    return {it: sum_of(it) for it in read}, {it: sum_of(it) for it in written}


# ---- what argus says


def ask(program: Programs, *words: str) -> Tuple[int, str]:
    """The status and the answer of argus. Raises Stop where it can't be asked."""
    try:
        said = program.ask(*words)
    except ProgramFault as fault:
        raise Stop(str(fault)) from fault
    return said.status, said.out


def checksum_of(program: Programs) -> str:
    """The SHA-256 of the program. Raises Stop where it can't be read."""
    try:
        return program.checksum()
    except ProgramFault as fault:
        raise Stop(str(fault)) from fault


def version_of(program: Programs) -> str:
    """What the launcher says of its version, in one line; a built program says nothing of it."""
    status, said = ask(program, "--version")
    return "; ".join(
        said.split("\n")).strip("; ") if status == 0 else "of a built program, which doesn't say"


# ---- the seal


def line_of(name: str, found: str) -> str:
    """The line of a file, as sha256sum writes it."""
    escaped = name.replace("\\", "\\\\")
    return "%s%s  %s" % ("\\" if escaped != name else "", found, escaped)


def name_of(job: str) -> str:
    """The name of a job's seal."""
    return re.sub(r"\.job$", "", job) + ".seal"


def lines_in(name: str) -> List[str]:
    """The lines of a seal. Raises Stop where it can't be read."""
    try:
        return [text_of(it) for it in lines_of(content(os.fsencode(name), None))]
    except Unread as fault:
        raise Stop(fault.line()) from fault


def put(name: str, text: str) -> None:
    """Writes a seal beside its place, and then puts it there whole."""
    part = "%s.%d.part" % (name, os.getpid())
    try:
        with open(part, "wb") as file:
            file.write(bytes_of(text))
        os.replace(part, name)
    except OSError as fault:
        raise Stop("%s: %s" % (name, fault.strerror)) from fault


def stop_on_taken(out: str, job: str, is_forced: bool) -> None:
    """Raises Stop where the seal's name is another file's."""
    read, written = files_of(job)
    if os.path.realpath(out) in {os.path.realpath(it) for it in read + written}:
        raise Stop("%s is a file of the job, and no seal" % out)
    if os.path.lexists(out):
        if not os.path.isfile(out) or lines_in(out)[:1] != [MARK]:
            raise Stop("%s is there and isn't a seal: take it away" % out)
        if not is_forced:
            raise Stop("%s is there already: --check compares with it, --force makes it anew" % out)


def seal(job: str, is_forced: bool, program: Programs) -> int:
    """Writes the seal of a release that argus accepts, and gives the status."""
    out = name_of(job)
    stop_on_taken(out, job, is_forced)
    before = sums_of(job)
    status, answer = ask(program, "check", job)
    if status or answer != "accepted\n":
        sys.stdout.write(answer)
        raise Stop("argus doesn't accept this release, so it isn't sealed", status or 2)
    if sums_of(job) != before:
        raise Stop("a file of the job changed meanwhile: call again")
    now = datetime.datetime.now(datetime.timezone.utc)
    lines = [
        MARK,
        "# date %s UTC" % now.strftime("%Y-%m-%d %H:%M:%S"),
        "# version %s" % version_of(program)
    ]
    lines += [
        "# program %s" % checksum_of(program),
        "# command argus check %s" % job, "# answer accepted"
    ]
    for title, found in zip(("# inputs", "# outputs"), before):
        lines += [title] + [line_of(name, it) for name, it in found.items()]
    put(out, "\n".join(lines) + "\n")
    print("sealed: %d inputs, %d outputs, %s" % (len(before[0]), len(before[1]), out))
    return 0


def read_seal(name: str) -> Dict[str, str]:
    """The SHA-256 of each file that a seal names."""
    lines = lines_in(name)
    if lines[:1] != [MARK]:
        raise Stop("%s: its first line isn't `%s`" % (name, MARK))
    found = {}
    for number, line in enumerate(lines, 1):
        matched = SEALED.fullmatch(line)
        if matched:
            found[matched[3].replace("\\\\", "\\") if matched[1] else matched[3]] = matched[2]
        elif line and not line.startswith("#"):
            raise Stop(
                "%s, line %d: neither a SHA-256 with the name of a file nor a line with # in front"
                % (name, number))
    return found


def check(job: str) -> int:
    """Compares the files of a job with its seal, and gives the status."""
    sealed = read_seal(name_of(job))
    for name, found in sealed.items():
        if not os.path.isfile(name):
            return say_not("%s isn't there" % name)
        if sum_of(name) != found:
            return say_not("%s is another file" % name)
    read, written = files_of(job)
    for name in read + written:
        if name not in sealed:
            return say_not("the seal has no %s" % name)
    print("sealed")
    return 0


def say_not(why: str) -> int:
    """Says why the files aren't as sealed, and gives the status."""
    print("not sealed: %s" % marked(why))
    return 3


def words_of(given: List[str]) -> Optional[Tuple[str, bool, bool, Programs]]:
    """The job, whether to compare, whether a seal is made anew, and the program argus."""
    names, is_check, is_forced, program = [], False, False, Programs()
    while given:
        word = given.pop(0)
        if word == "--check":
            is_check = True
        elif word == "--force":
            is_forced = True
        elif word == "--argus" and given:
            program = Programs(os.path.abspath(given.pop(0)))
        elif word.startswith("--"):
            return None
        else:
            names.append(word)
    return (names[0], is_check, is_forced,
            program) if len(names) == 1 and not (is_check and is_forced) else None


def main(words: List[str]) -> int:
    """Does what the words say, and gives the status."""
    given = words_of(words)
    if given is None:
        print(USAGE, file=sys.stderr)
        return 1
    job, is_check, is_forced, program = given
    try:
        if marked(job) != job:
            raise Stop("%s: the name of a job is printable ASCII" % job)
        return check(job) if is_check else seal(job, is_forced, program)
    except Stop as fault:
        sys.stdout.flush()
        print("seal: %s" % marked(str(fault)), file=sys.stderr)
        return fault.status
