"""After a release: which sensitive cells a firm that stands alone in another one works out exactly.

Such a firm knows the figure of each cell in which it is alone. Where a sum then has a single cell
left that nobody shows, the firm has that one too, and so on. A job with the line <CONTRIBUTORS>
keeps these firms out.
"""

from typing import Dict, List, NamedTuple, Optional, Set

from argus_office.explaining.rooms import knowers
from argus_office.reading.book import Book, Relation
from argus_office.reading.certificate import BadCertificate, Certificate
from argus_office.reading.files import Unread, content, grouped, shown_name
from argus_office.reading.job import Job

# So many parts of sums are looked at in all, some seconds of work.
MOST_WORK = 1500000


class Found(NamedTuple):
    """A sensitive cell that a firm works out: its row, from 1, a cell that it knows, and the
    cell."""

    row: int
    known: int
    cell: int


class Sums:
    """The sums of a release, each with its hidden cells."""

    def __init__(self, relations: List[Relation], hidden: Set[int]) -> None:
        self.work = 0
        self.hidden = [[it for it in [total, *parts] if it in hidden] for total, parts in relations]
        self.of: Dict[int, List[int]] = {}
        for number, cells in enumerate(self.hidden):
            for cell in cells:
                self.of.setdefault(cell, []).append(number)

    def worked_out(self, known: Set[int]) -> Set[int]:
        """The hidden cells that sums give to someone who knows some of them."""
        found: Set[int] = set()
        waiting = sorted(known)
        while waiting and self.work <= MOST_WORK:
            for number in self.of.get(waiting.pop(), []):
                self.work += len(self.hidden[number])
                left = [it for it in self.hidden[number] if it not in known and it not in found]
                if len(left) == 1:
                    found.add(left[0])
                    waiting.append(left[0])
        return found


def worked_out(book: Book, hidden: Set[int]) -> Optional[Dict[int, Found]]:
    """Each sensitive cell that some firm works out, with the first such firm; None where there is
    too much to look at."""
    sums = Sums(book.relations(), hidden)
    found: Dict[int, Found] = {}
    for row, alone in knowers(book):
        known = alone & hidden
        for cell in sorted(sums.worked_out(known)):
            if book.cells[cell].status == "primary":
                found.setdefault(cell, Found(row, min(known), cell))
        if sums.work > MOST_WORK:
            return None
    return found


def hidden_in(job: Job) -> Optional[Set[int]]:
    """The cells that the release's certificate hides; None where it can't be read."""
    name = job.file("CERTIFICATE")
    try:
        return set(Certificate(content(name, None)).hidden) if name is not None else None
    except (Unread, BadCertificate):
        return None


def insiders(job: Job) -> List[str]:
    """What to say of firms that work out sensitive cells, in one line; nothing where there are
    none, and where the job keeps them out."""
    hidden = hidden_in(job)
    if not hidden or job.of("CONTRIBUTORS"):
        return []
    book = Book(job)
    found = worked_out(book, hidden)
    if found is None:
        return [
            "Not looked at, since it would take long: what firms that stand alone in a cell work "
            "out. A line <CONTRIBUTORS> keeps them out."
        ]
    return [told(book, list(found.values()))] if found else []


def told(book: Book, found: List[Found]) -> str:
    """The line, with the first of the cells as its example."""
    first, count = found[0], len(found)
    cells = "1 sensitive cell" if count == 1 else "%s sensitive cells" % grouped(count)
    record = book.rows[first.row - 1].record
    return (
        "%s can be worked out exactly by a firm that stands alone in another hidden cell: [%s] by "
        "that of %s, line %d, which is alone in [%s]. A line <CONTRIBUTORS> \"FILE\" in the job "
        "keeps such firms out (the manual, Singletons)." %
        (cells, book.short(first.cell), shown_name(book.data.name), record.line,
         book.short(first.known)))
