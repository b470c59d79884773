"""All that a page shows of a release."""

import re
from typing import List, Optional

from argus_office.paging.asking import Argus, Listing, Ranges
from argus_office.paging.amounts import Amounts, Fact, Relation, listing_of, relations_of
from argus_office.paging.files import Job, Metadata, Refused, Stop, content
from argus_office.paging.tables import Book, Table
from argus_office.reading.certificate import BadCertificate, Certificate
from argus_office.reading.files import Unread, opened

# The rules, in the order in which their colours are looked up: a cell has that of the first rule
# that names it.
RULES = {"FREQ": "freq", "NK": "nk", "P": "p", "PQ": "pq", "ZERO": "zero", "u": "u"}
# How a cell that isn't sensitive came to be hidden.
WAYS = {
    "step": "hidden by a step of the plan",
    "repair": "hidden by a repair",
    "extra": "hidden against a contributor",
}

# What argus check says where there is no release yet.
NOT_THERE = re.compile(r"refused: (certificate|contributors|table [0-9]+): Absent")


class Release:
    """All that a page shows. Parts that aren't there are None: the listings of cells and relations,
    the intervals, and of a public page also the rest.

    Raises Refused where a public page is asked for and argus doesn't accept the release, and Stop
    where something can't be read or asked.
    """

    accepted = ""
    is_accepted = False
    certificate: Certificate
    facts: Optional[List[Fact]] = None
    relations: Optional[List[Relation]] = None
    ranges: Optional[Ranges] = None

    def __init__(
        self, job_name: str, is_public: bool, program: Optional[str], is_checked: bool = True
    ) -> None:
        self.is_public, self.job = is_public, Job(job_name)
        self.metadata = Metadata(self.job.metadata())
        self.notes: List[str] = []
        argus = Argus(program)
        try:
            self.gather(argus, is_checked)
        finally:
            argus.close()

    def gather(self, argus: Argus, is_checked: bool) -> None:
        """Asks all that there is to ask at one time, and reads the files meanwhile."""
        name = self.job.name
        judgement = argus.judgement(name) if is_checked else None
        if not self.is_public:
            listing, sums = argus.listing(name), argus.listing(name, "--relations")
            ranges = argus.intervals(name) if self.job.base is None else None
        if judgement:
            self.judge(*judgement.result())
        self.job.check()
        self.read_tables()
        if self.is_public:
            return
        try:
            self.certificate = Certificate(content(self.job.certificate()))
        except BadCertificate as fault:
            raise Stop(str(fault)) from fault
        self.take_listings(listing.result(), sums.result())
        if ranges and self.hidden:
            self.ranges, why = ranges.result()
            if why:
                self.notes.append(
                    "argus intervals %s: %s. Left out: what readers of the tables can tell of a "
                    "hidden cell." % (name, why)
                )
        self.compare_counts()

    def read_tables(self) -> None:
        """The tables, and their cells."""
        tables = [
            Table(number, self.job.outputs[number], names, response, self.job.levels_of(number))
            for number, (names, response) in enumerate(self.job.tables, 1)
        ]
        self.book = Book(tables, self.metadata)
        self.amounts = Amounts(self.decimals())
        self.hidden = [cell for cell, text in enumerate(self.book.text) if text == "x"]

    def decimals(self) -> int:
        """How many decimals the tables' values have. Raises Stop where they differ."""
        found = {len(text.partition(".")[2]) for text in self.book.text if text != "x"}
        if len(found) > 1:
            raise Stop("the tables have values of more than one count of decimals")
        if found:
            return found.pop()
        weight = self.metadata.weight()
        more = self.metadata.decimals(weight) if self.job.is_weighted() and weight else 0
        return self.metadata.decimals(self.book.tables[0].response) + more

    def judge(self, status: int, said: str) -> None:
        """Takes what argus check says."""
        if status not in (0, 3):
            why = said.strip() or "status %d" % status
            if NOT_THERE.fullmatch(why):
                why += ". Make the release first: argus run %s" % self.job.name
            raise Stop("argus check %s: %s" % (self.job.name, why))
        self.accepted = said.strip()
        self.is_accepted = status == 0
        if self.is_public and not self.is_accepted:
            raise Refused(
                "no public page, since argus check %s says: %s" % (self.job.name, self.accepted)
            )

    def take_listings(self, cells: Listing, sums: Listing) -> None:
        """Takes both listings of cells, and notes what is left out where one is missing. A rounded
        release has no multipliers, so that nothing is missing without the relations."""
        said, why = cells
        if said is None:
            self.notes.append(self.left_out(why))
            return
        self.facts = listing_of(said, self.book, self.amounts)
        said, why = sums
        if said is not None:
            self.relations = relations_of(said, self.book)
        elif self.job.base is None:
            self.notes.append(
                "Made without the listing of the relations (%s). Left out: the sums that would "
                "give a hidden cell away." % why
            )

    def compare_counts(self) -> None:
        """Notes a certificate that counts other cells or relations."""
        given = self.certificate.counts
        is_other = given["cells"] != len(self.book.names)
        if self.relations is not None:
            is_other = is_other or given["relations"] != len(self.relations)
        if is_other:
            self.notes.append(
                "The certificate counts other cells or relations than the tables have: it belongs "
                "to another job."
            )

    def left_out(self, why: str) -> str:
        """What the page lacks without the listing of the cells."""
        lacking = (
            "true values of hidden cells, their records, contributions and protection levels, the "
            "rules that name them, the sums that would give them away, and how narrowly they are "
            "protected"
        )
        if self.job.base is not None:
            lacking = (
                "true values and how far the shown ones lie from them, which cells are sensitive, "
                "and records"
            )
        return (
            "Made without the listing of the cells (%s). Left out: what was read of each variable; "
            "%s." % (why, lacking)
        )

    def came_by(self, cell: int) -> str:
        """How a hidden cell came to be hidden."""
        return self.certificate.came_by(cell)

    def truth(self, cell: int) -> Optional[int]:
        """The true value in units, or None where it isn't known here."""
        if self.facts:
            return self.facts[cell].value
        is_true = self.book.text[cell] != "x" and self.job.base is None
        return self.amounts.units(self.book.text[cell]) if is_true else None

    def kind(self, cell: int) -> str:
        """How a hidden cell is coloured: by the first rule that names it, or by how it came."""
        by = self.came_by(cell)
        if by == "primary":
            rules = self.facts[cell].rules if self.facts else []
            other = "u" if self.facts else "s"
            return next((RULES[it] for it in RULES if it in rules), other)
        return by.partition(" ")[0]

    def mark(self, cell: int) -> str:
        """What stands below the x of a hidden cell."""
        by = self.came_by(cell)
        if by == "primary":
            return " ".join(self.facts[cell].rules) if self.facts else "sensitive"
        return by

    def skipped(self) -> Optional[int]:
        """How many records of the microdata were skipped: its lines with at least a byte, less the
        records of the total."""
        if not self.facts:
            return None
        try:
            with opened(self.job.microdata()) as file:
                count = sum(1 for line in file if line not in (b"\n", b"\r\n"))
        except (OSError, Unread):
            return None
        return count - self.facts[0].records
