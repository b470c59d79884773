"""Says which sensitive cells of a release stay open for a reader who knows that all values are
whole units, as counts are.

usage: argus whole JOB

In one table by one or by two variables without levels all complete tables of a certificate are
whole. Elsewhere one may have fractions, and such a reader can rule it out. This reads the complete
tables of a release that `argus check` accepts. Where a whole one of them, whichever cell it was
found for, gives a sensitive cell another value than it has, the cell isn't determined: the true
table and that one agree with all that the reader knows. Of a cell without one nothing is known: a
whole table may exist that isn't in the certificate.

Nothing is written. The status is 0 where every sensitive cell has such a table, 1 for the usage
line, 2 where something can't be read, 3 where the release isn't accepted, 4 where a cell has none.
"""

import csv
import os
import sys
from typing import Iterable, List, Set, Tuple

from argus_office.programs import ProgramFault, Programs
from argus_office.reading.certificate import BadCertificate, Certificate, World
from argus_office.reading.files import Unread, content, text_of
from argus_office.reading.job import Job
from argus_office.reading.tables import Listing, rows_of

USAGE = "usage: argus whole JOB"
# How many cells are named.
FEW = 20


class Stop(Exception):
    """Why nothing is said, in one line, and the status."""

    def __init__(self, what: str, status: int = 2) -> None:
        super().__init__(what)
        self.status = status


def certificate_of(job: str) -> str:
    """The certificate that a job names, from the current folder. Raises Unread."""
    name = Job(os.fsencode(job)).file("CERTIFICATE")
    if name is None:
        raise Stop("%s names no certificate" % job)
    return os.path.join(os.path.dirname(job), text_of(name))


def moved(worlds: Iterable[World]) -> Set[int]:
    """The cells that some whole complete table moves."""
    found: Set[int] = set()
    for world in worlds:
        if all(by % world.den == 0 for _, by in world.moves):
            found.update(cell for cell, _ in world.moves)
    return found


def sensitive_cells(job: str, programs: Programs) -> List[Tuple[int, str]]:
    """The sensitive cells of a job's release: their numbers, and their numbers and codes."""
    said = programs.cells(os.path.basename(job), "--released", folder=os.path.dirname(job) or ".")
    if said.status:
        raise Stop("cells %s: %s" % (job, said.err.strip() or "status %d" % said.status))
    try:
        listing = Listing(rows_of(said.out))
    except (ValueError, csv.Error) as fault:
        raise Stop("cells printed no listing of %s" % job) from fault
    if not listing.is_whole():
        raise Stop("cells printed no listing of %s" % job)
    at = listing.at["status"]
    return [
        (int(row[0]), shown("%s: %s" % (row[0], ", ".join(listing.codes(row)))))
        for row in listing.rows if row[at] == "primary"
    ]


def shown(text: str) -> str:
    """A text of one line: what can't be printed is marked."""
    return "".join(it if it.isprintable() else "?" for it in text)


def told(job: str) -> List[str]:
    """What is said of a release: a line, and one more for each cell without a whole table."""
    programs = Programs()
    name, folder = os.path.basename(job), os.path.dirname(job) or "."
    data = content(os.fsencode(certificate_of(job)), None)
    said = programs.ask("check", name, folder=folder)
    if said.out.strip() != "accepted":
        raise Stop("argus check %s says %s" % (job, said.out.strip()), 3)
    try:
        found = moved(Certificate(data).worlds)
    except (BadCertificate, ZeroDivisionError) as fault:
        raise Stop("%s: a line isn't read" % certificate_of(job)) from fault
    sensitive = sensitive_cells(job, programs)
    left = [text for cell, text in sensitive if cell not in found]
    lines = ["whole: %d of %d sensitive cells have another value in a whole table" %
             (len(sensitive) - len(left), len(sensitive))]
    lines += ["not known: cell " + it for it in left[:FEW]]
    return lines + (["not known: %d more" % (len(left) - FEW)] if len(left) > FEW else [])


def main(words: List[str]) -> int:
    """Does what the words say, and gives the status."""
    if len(words) != 1 or words[0].startswith("-"):
        print(USAGE, file=sys.stderr)
        return 1
    try:
        lines = told(words[0])
    except (ProgramFault, Unread) as fault:
        said = fault.line() if isinstance(fault, Unread) else str(fault)
        print("whole: %s" % shown(said), file=sys.stderr)
        return 2
    except Stop as stop:
        print("whole: %s" % shown(str(stop)), file=sys.stderr)
        return stop.status
    sys.stdout.buffer.write("".join(it + "\n" for it in lines).encode("utf-8", "surrogateescape"))
    return 0 if len(lines) == 1 else 4
