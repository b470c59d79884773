"""From an answer of argus to what to say of it."""

import os
import re
from typing import List, NamedTuple, Optional, Tuple

from argus_office.explaining import (contributors, doubts, jobs, metadata, priors, protection,
                                     records, releases, trees, undecided)
from argus_office.explaining.mending import PriorLines
from argus_office.explaining.texts import absent
from argus_office.reading.book import Book
from argus_office.reading.files import Unread, shown_name
from argus_office.reading.job import Job

MOST = 6
WORDS = {"run": 2, "check": 2, "intervals": 3, "audit": 3, "migrate": 3, "demo": 3}


class Asked(NamedTuple):
    """What is to be explained: the job's name (of migrate, the old certificate's), argus's own
    words where they are known, and its answer."""

    job: bytes
    words: List[str]
    answer: List[str]


# Lines of an explanation, and lines for a priori files.
Told = Tuple[List[str], List[PriorLines]]


class Said(NamedTuple):
    """What is said: at most six lines, after a release one more for each pair of variables that
    overlap, and the lines for a priori files that may follow."""

    lines: List[str]
    priors: List[PriorLines]

    def rows(self) -> List[str]:
        """The lines for a priori files, each file's behind one that says where they go."""
        return [row for it in self.priors for row in it.rows()]


def explained(asked: Asked) -> Said:
    """What to say of an answer. Nothing is said of an answer that isn't known."""
    answer = next((it.strip() for it in asked.answer if it.strip()), "")
    if asked.words[:1] == ["migrate"]:
        return Said(cut(migrated(asked, answer)), [])
    try:
        job = Job(asked.job)
    except Unread as fault:
        return Said(cut(no_job(asked, answer, fault)), [])
    try:
        lines, priors_told = of_job(job, asked, answer)
    except Unread as fault:
        lines, priors_told = [fault.text()], []
    return Said(cut(lines, None if answer.startswith("released: ") else MOST), priors_told)


def cut(lines: List[str], most: Optional[int] = MOST) -> List[str]:
    """So many lines at most, without empty ones and line ends."""
    return [" ".join(it.split("\n")).rstrip() for it in lines if it.strip()][:most]


def no_job(asked: Asked, answer: str, fault: Unread) -> List[str]:
    """What to say where the job itself can't be read."""
    if answer.startswith("refused: job: Absent"):
        return ["The job is %s." % shown_name(asked.job)] + absent(asked.job, ".job")
    return [fault.text()]


def of_job(job: Job, asked: Asked, answer: str) -> Told:
    """What to say of an answer about a job that can be read, by its first words."""
    if answer.startswith("refused: "):
        return refused(job, asked, answer[9:]), []
    if answer.startswith("cannot protect "):
        return cannot(job, [it.strip() for it in asked.answer if it.strip()])
    if answer.startswith(("undecided: ", "no rounding")):
        return undecided.explain(job, answer), []
    if answer.startswith("not accepted: "):
        return releases.not_accepted(job, answer[14:].split()), []
    if answer.startswith("not guarded: "):
        return releases.not_guarded(job, answer[13:].split()), []
    if answer.startswith("released: "):
        return doubts.explain(job, answer, bool(asked.words)), []
    return other(job, answer), []


def cannot(job: Job, lines: List[str]) -> Told:
    """What to say of `cannot protect ..`: lines, and those for a priori files."""
    question = protection.question_of(lines)
    if question is None:
        return [], []
    book = Book(job)
    if question.row:
        return contributors.explain(book, question)
    return protection.explain(book, question), []


def refused(job: Job, asked: Asked, said: str) -> List[str]:
    """What to say of `refused: ..`, by the file that it names."""
    found = re.fullmatch(r"job line (\d+): (.+)", said)
    if found:
        return jobs.explain(job, int(found[1]), found[2], asked.words)
    found = re.fullmatch(r"metadata line (\d+): (\w+)", said)
    if found:
        return metadata.explain(job.metadata(), int(found[1]), found[2])
    found = re.fullmatch(r"(hierarchy|codelist) (\d+) line (\d+): (\w+)", said)
    if found:
        return trees.explain(job.metadata(),
                             "HIERCODELIST" if found[1] == "hierarchy" else "CODELIST",
                             int(found[2]), int(found[3]), found[4])
    found = re.fullmatch(r"record (\d+): (\w+)", said)
    if found:
        return records.explain(job, int(found[1]), found[2])
    found = re.fullmatch(r"apriori table (\d+) line (\d+): (\w+)", said)
    if found:
        return priors.explain(job, int(found[1]), int(found[2]), found[3])
    found = re.fullmatch(r"(certificate|contributors) line (\d+): (\w+)", said)
    if found:
        first = "argus contributors 1" if found[1] == "contributors" else "argus certificate 2"
        return releases.unreadable(job.file(found[1].upper()), int(found[2]), found[3], first)
    return whole_file(job, asked, said)


def whole_file(job: Job, asked: Asked, said: str) -> List[str]:
    """Faults of a file as a whole."""
    if said == "out: OutName":
        return releases.out_name(job, asked.words)
    found = re.fullmatch(r"table (\d+): TooManyCells", said)
    if found:
        return releases.too_many_cells(job, int(found[1]))
    found = re.fullmatch(r"(\w+)(?: (?:table )?(\d+))?: (Absent|TooLong)", said)
    if found is None:
        return []
    number = int(found[2] or 0)
    if found[3] == "TooLong":
        return [
            "The file has more bytes than argus takes: 268,435,456 for an input.",
            "Is it the right one? Leave out records without a response, and bytes that no field "
            "has; don't cut it in two (the manual, Never split tables that share cells)."
        ]
    return absent_file(job, found[1], number)


def absent_file(job: Job, what: str, number: int) -> List[str]:
    """A file that isn't there, by what argus calls it."""
    if what in ("metadata", "microdata"):
        return jobs.absent_file(job, "OPEN" + what.upper())
    if what in ("codelist", "hierarchy"):
        word = "CODELIST" if what == "codelist" else "HIERCODELIST"
        return trees.absent_file(job.metadata(), word, number, job.name)
    if what == "apriori":
        return priors.absent_file(job, number)
    if what in ("certificate", "contributors"):
        return releases.absent_output(job, what.upper(), 0)
    if what == "table":
        return releases.absent_output(job, "table", number)
    if what != "job":
        return []
    return [
        "The job is %s, and it is there now; it wasn't when argus looked." % shown_name(job.name)
    ]


def other(job: Job, answer: str) -> List[str]:
    """What to say of faults that lie outside the files."""
    if answer.startswith(("read fault: ", "write fault: ")):
        return [
            "The system's reason is on argus's own line on standard error. After a write fault "
            "nothing of this run may be published: remove the cause, and run again."
        ]
    if answer == "memory":
        return [
            "There wasn't enough memory. Close other programs, take coarser codes, or run on a "
            "machine with more."
        ]
    return []


def migrated(asked: Asked, answer: str) -> List[str]:
    """What to say of `migrate OLD NEW`."""
    if answer == "refused: out: OutName":
        return releases.out_name(None, asked.words)
    if answer == "refused: certificate: Absent":
        return ["The certificate is %s." % shown_name(asked.job)] + absent(asked.job, ".cert")
    found = re.fullmatch(r"refused: certificate line (\d+): (\w+)", answer)
    return releases.unreadable(asked.job, int(found[1]), found[2],
                               "argus certificate 2") if found else []


def is_answer(text: str) -> bool:
    """Whether a word is a line that argus prints."""
    heads = ("refused: ", "cannot protect ", "undecided: ", "no rounding", "not accepted: ",
             "not guarded: ", "read fault: ", "write fault: ", "memory", "released: ", "accepted",
             "intervals: ", "audited: ", "migrated", "multipliers ", "demo: ", "usage: ")
    return text.startswith(heads)


def asked_of(arguments: List[str], rest: str) -> Optional[Asked]:
    """What is asked by the words of a call and what stands on standard input; nothing where it
    isn't clear."""
    lines = rest.split("\n")
    if arguments[:1] and arguments[0] in WORDS and len(arguments) == WORDS[
            arguments[0]] and not is_answer(arguments[1]):
        return Asked(os.fsencode(arguments[1]), arguments, lines)
    if not arguments:
        return None
    answer = [line for it in arguments[1:] for line in it.split("\n")]
    return Asked(os.fsencode(arguments[0]), [], answer + lines) if answer or rest.strip() else None
