"""Judges a contributors' file: no firm that stands alone in a cell finds out another one (manual:
Firms that stand alone)."""
from typing import Dict, List, Optional, Set, Tuple

from argus_outside.cells import Book
from argus_outside.certificate import Certificate, Refuted
from argus_outside.sums import Sums, reaches
from argus_outside.texts import NotAccepted


def fault(kind: str, words: str) -> NotAccepted:
    """A fault of the contributors' file."""
    return NotAccepted(kind, words, "not guarded")


class Guards:
    """The extra cells, their needs and the guards, against each record that is the only one of a
    cell. A record knows the
    cells of which it is the only one, whatever its weight."""
    def __init__(self, book: Book, sums: Sums, certificate: Certificate,
                 extra: Certificate) -> None:
        self.book, self.sums, self.certificate, self.extra = book, sums, certificate, extra
        self.sole: Dict[int, int] = {
            number: cell.row
            for number, cell in enumerate(book.cells) if cell.count == 1 and cell.row is not None
        }
        self.known: Dict[int, Set[int]] = {}
        for number, row in self.sole.items():
            self.known.setdefault(row, set()).add(number)
        self.hidden = set(certificate.hidden) | set(extra.hidden)

    def check(self) -> None:
        """The first fault, kind by kind over the whole file."""
        self._cells()
        self._needs()
        self._guards()
        self._open()

    def _known(self, need: Refuted) -> Set[int]:
        """The cells of which a need's record is the only one; none where it is alone in no cell."""
        return self.known.get(need.row, set()) if need.row is not None else set()

    def _primary(self, number: int) -> bool:
        return number < len(self.book.cells) and self.book.cells[number].kind == "Primary"

    def _cells(self) -> None:
        """Every extra cell may be hidden, and isn't hidden by the certificate already."""
        for place, number in enumerate(self.extra.hidden):
            if number >= len(self.book.cells):
                raise fault("Cell %d" % place, "extra cell %d is no cell" % number)
            if self.book.cells[number].kind != "Free" or number in self.certificate.hidden:
                raise fault(
                    "Cell %d" % place, "the extra cell %s is hidden already or may not be hidden" %
                    self.book.named(number))

    def _needs(self) -> None:
        """Every extra cell has a need: shown, it would let a record find out a sensitive cell that
        the record doesn't know.
        """
        needs, subjects = self.extra.needs, self.extra.hidden
        for place in range(max(len(needs), len(subjects))):
            need = needs[place] if place < len(needs) else None
            if need is None or [need.subject] != subjects[place:place + 1]:
                raise fault(
                    "NeedCell %d" % place,
                    "need %d isn't that of the extra cell in turn, is missing or one too many" %
                    place)
            known = self._known(need)
            if not known or not self._primary(need.cell) or need.cell in known:
                raise fault(
                    "NeedCell %d" % place,
                    "need %d speaks of a record that is alone in no cell, or of a cell that isn't "
                    "sensitive or that the record knows" % place)
        for place, need in enumerate(needs):
            without = self._known(need) | {need.subject}
            found = self.sums.refutation_fault(self.hidden, need, without)
            if found:
                raise fault(
                    "Need %d %s" % (place, found[0]),
                    "the need doesn't show that the extra cell %s must stay hidden: %s" %
                    (self.book.named(need.subject), found[1]))

    def _guards(self) -> None:
        """Every guard is a complete table, for a sensitive cell and a side, in their order."""
        before = (-1, "above")
        for place, guard in enumerate(self.extra.worlds):
            if not self._primary(guard.cell) or (guard.cell, guard.side) < before:
                raise fault("GuardCell %d" % place,
                            "guard %d is for a cell that isn't sensitive, or out of order" % place)
            before = (guard.cell, guard.side)
        for place, guard in enumerate(self.extra.worlds):
            found = self.sums.world_fault(self.hidden, guard)
            if found:
                raise fault(
                    "Guard %d %s" % (place, found[0]),
                    "guard %d for %s isn't a complete table: %s" %
                    (place, self.book.named(guard.cell), found[1]))

    def _open(self) -> None:
        """For each such record, each sensitive cell that it doesn't know and each side, some
        complete table reaches the level
        and leaves all cells alone that the record knows."""
        found: List[Tuple[int, int, str]] = []
        worlds = self.certificate.worlds + self.extra.worlds
        touched = [{self.sole[number]
                    for number, _ in world.moves if number in self.sole} for world in worlds]
        # By cell the complete tables that move it, and by how much.
        moves: Dict[int, Dict[int, int]] = {}
        for place, world in enumerate(worlds):
            for number, by in world.moves:
                moves.setdefault(number, {})[place] = by
        for number, cell in enumerate(self.book.cells):
            if cell.kind != "Primary":
                continue
            for side in ("above", "below"):
                own = moves.get(number, {})
                places = own if side == "above" or cell.down else range(len(worlds))
                # The records that know a cell which each table so far moves.
                left: Optional[Set[int]] = None
                for place in places:
                    if left != set() and reaches(cell, side, own.get(place, 0), worlds[place].den):
                        left = touched[place] if left is None else left & touched[place]
                among = set(self.known) if left is None else left
                rows = [row for row in among if number not in self.known[row]]
                if rows:
                    found.append((min(rows), number, side))
        if found:
            row, number, side = min(found)
            raise fault(
                "Open %d %d %s" % (row + 1, number, side),
                "no complete table keeps the firm of record %d from %s %s" %
                (row + 1, self.book.named(number), side))
