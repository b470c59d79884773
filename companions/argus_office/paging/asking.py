"""What the programs argus and cells say to the words of a page, asked side by side. None of them is
ever built for a page."""

import os
import tempfile
from concurrent.futures import Future, ThreadPoolExecutor
from fractions import Fraction
from typing import Dict, Optional, Tuple

from argus_office.paging.files import Stop, text_in
from argus_office.programs import ProgramFault, Programs
from argus_office.reading.tables import rows_of

# By cell the two ends of an interval, in units; a high that is open is None.
Ranges = Dict[int, Tuple[Fraction, Optional[Fraction]]]
# A listing, or none and why.
Listing = Tuple[Optional[str], str]


class Argus:
    """The program argus, and cells beside it. Each question runs on its own; its answer is waited
    for where it is taken."""

    def __init__(self, program: Optional[str]) -> None:
        self.programs = Programs(program)
        self.side = ThreadPoolExecutor(max_workers=4)

    def ask(self, *words: str) -> Tuple[int, str]:
        """The status and the answer of argus. Raises Stop where it can't be asked."""
        try:
            said = self.programs.ask(*words)
        except ProgramFault as fault:
            raise Stop(str(fault)) from fault
        return said.status, said.out

    def judgement(self, job: str) -> "Future[Tuple[int, str]]":
        """What argus check says of a release."""
        return self.side.submit(self.ask, "check", job)

    def listing(self, job: str, *option: str) -> "Future[Listing]":
        """The listing of the cells, or with `--relations` that of the relations; or nothing, and
        why there is none."""
        return self.side.submit(self.listed, job, *option)

    def listed(self, job: str, *option: str) -> Listing:
        """The listing itself, once the program has said it."""
        try:
            said = self.programs.cells(job, *option)
        except ProgramFault as fault:
            return None, str(fault)
        if said.status == 0:
            return said.out, ""
        return None, said.out.strip() or "status %d" % said.status

    def intervals(self, job: str) -> "Future[Tuple[Optional[Ranges], str]]":
        """What readers can tell of each hidden cell; or nothing, and why."""
        return self.side.submit(self.ranges, job)

    def ranges(self, job: str) -> Tuple[Optional[Ranges], str]:
        """The interval file's lines by cell. Raises Stop where argus can't be asked."""
        with tempfile.TemporaryDirectory() as folder:
            out = os.path.join(folder, "ranges.csv")
            status, said = self.ask("intervals", job, out)
            if status != 0:
                return None, said.strip()
            found: Ranges = {}
            for row in rows_of(text_in(out)):
                if row and row[0] != "cell":
                    high = None if row[2] == "open" else Fraction(row[2])
                    found[int(row[0])] = (Fraction(row[1]), high)
            return found, ""

    def close(self) -> None:
        """Ends with the questions that are still open."""
        self.side.shutdown(wait=True)
