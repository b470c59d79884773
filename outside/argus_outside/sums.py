"""Judges complete tables and multipliers by exact whole numbers (manual: One complete
table and one need by pencil)."""
from typing import Dict, Iterable, List, Optional, Set, Tuple

from argus_outside.cells import Book, Cell
from argus_outside.certificate import WIDE, Refuted, World

Fault = Tuple[str, str]  # argus's kind with its numbers, and words


class Sums:
    """The relations, cut down to the cells that may move: those hidden by anything the release's
    files say.
    """
    def __init__(self, book: Book, movable: Iterable[int]) -> None:
        self.book = book
        self.by_cell: Dict[int, List[Tuple[int, int]]] = {cell: []
                                                          for cell in movable}  # (relation, sign)
        self.by_relation: List[List[Tuple[int, int]]] = []  # (cell, sign)
        for number, (total, _, parts) in enumerate(book.relations):
            members = [(cell, sign) for cell, sign in [(total, 1)] + [(part, -1) for part in parts]
                       if cell in self.by_cell]
            self.by_relation.append(members)
            for cell, sign in members:
                self.by_cell[cell].append((number, sign))

    def world_fault(self, hidden: Set[int], world: World) -> Optional[Fault]:
        """The first fault of a complete table: a shown cell moves, a cell leaves its bounds, or a
        sum doesn't hold.
        """
        sums: Dict[int, int] = {}
        for place, (number, by) in enumerate(world.moves):
            if number >= len(self.book.cells):
                return "Order %d" % place, "it moves cell %d, and there is no such cell" % number
        for number, by in world.moves:
            cell, named = self.book.cells[number], self.book.named(number)
            if number not in hidden:
                return "Shown %d" % number, "it moves %s, which is shown" % named
            if by < (cell.low - cell.truth) * world.den:
                return "Bound %d" % number, "%s falls below its lower bound" % named
            if cell.high is not None and by > (cell.high - cell.truth) * world.den:
                return "Bound %d" % number, "%s rises above its upper bound" % named
            for relation, sign in self.by_cell[number]:
                sums[relation] = sums.get(relation, 0) + sign * by
        broken = [relation for relation, total in sums.items() if total]
        if broken:
            return "Relation %d" % min(broken), "%s doesn't hold in it" % self.book.named_relation(
                min(broken))
        return None

    def too_wide(self, number: int) -> Fault:
        """A number at this cell that isn't worked out."""
        return "Wide %d" % number, "a number at %s has more than 128 bits" % self.book.named(number)

    def coefficients(self, refuted: Refuted) -> Dict[int, int]:
        """The numbers at the movable cells: the weighted relations (total less parts) with q or -q
        times the cell.
        """
        found = {refuted.cell: refuted.den if refuted.side == "above" else -refuted.den}
        for relation, number in refuted.multipliers:
            for cell, sign in self.by_relation[relation]:
                found[cell] = found.get(cell, 0) + sign * number
        return found

    def wide(self, refuted: Refuted) -> Optional[int]:
        """The first cell, shown or not, whose number leaves 128 bits on the way; None where there
        is none.
        """
        if refuted.den + sum(abs(number) for _, number in refuted.multipliers) < WIDE:
            return None
        found = {refuted.cell: refuted.den if refuted.side == "above" else -refuted.den}
        for relation, number in refuted.multipliers:
            total, _, parts = self.book.relations[relation]
            for cell, sign in [(total, 1)] + [(part, -1) for part in parts]:
                found[cell] = found.get(cell, 0) + sign * number
                if not -WIDE <= found[cell] < WIDE:
                    return cell
        return None

    def refutation_fault(self, hidden: Set[int], refuted: Refuted,
                         without: Iterable[int] = ()) -> Optional[Fault]:
        """The first fault of multipliers that are to show: with these cells hidden, less `without`,
        the cell can't reach its
        level. What all hidden cells add at most must be below q times the level."""
        for place, (relation, _) in enumerate(refuted.multipliers):
            if relation >= len(self.book.relations):
                return "Order %d" % place, "there is no relation %d" % relation
        wide = self.wide(refuted)
        if wide is not None:
            return self.too_wide(wide)
        most = 0
        for number, coefficient in sorted(self.coefficients(refuted).items()):
            if coefficient == 0 or number not in hidden or number in without:
                continue
            cell = self.book.cells[number]
            bound = cell.high if coefficient > 0 else cell.low
            if bound is None:
                words = "%s counts upwards, and has no upper bound" % self.book.named(number)
                return "Unbounded %d" % number, words
            term = coefficient * (bound - cell.truth)
            most += term
            if term >= WIDE or most >= WIDE:
                return self.too_wide(number)
        cell = self.book.cells[refuted.cell]
        wanted = refuted.den * (cell.up if refuted.side == "above" else cell.down)
        if wanted >= WIDE:
            return self.too_wide(refuted.cell)
        if most >= wanted:
            return "NotBelow", "it allows %s a move of %d/%d %s" % (self.book.named(
                refuted.cell), most, refuted.den, refuted.side)
        return None


def reaches(cell: Cell, side: str, by: int, den: int) -> bool:
    """Whether a cell that moves by `by` over `den` lies at least its level to that side of its true
    value.
    """
    return by >= den * cell.up if side == "above" else by <= -den * cell.down
