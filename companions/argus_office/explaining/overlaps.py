"""Spanning variables of one job that overlap: they share bytes of the record, or each code of one
goes with a single code of the other.

argus takes variables as they are, and knows no sums between two of them; a reader of their tables
may. One variable that each table takes down to its own level says these sums: so each doubt has the
DEPTH lines for it.
"""

import itertools
from typing import Dict, List, NamedTuple, Optional, Set, Tuple

from argus_office.reading.arguments import MOST_LEVEL
from argus_office.reading.files import BLANKS, Unread, bytes_range, listed, shown, shown_name
from argus_office.reading.metadata import Variable
from argus_office.reading.records import Microdata
from argus_office.reading.trees import Tree, tree_of

# For each code of a variable the only code of another one with which it occurs.
Partners = Dict[bytes, bytes]


class Side:
    """One way to look at a pair: each code of `one` occurs with a single code of `other`, as far as
    records were looked at."""
    def __init__(self, one: Variable, other: Variable):
        self.one, self.other = one, other
        self.partners: Partners = {}
        self.holds = True
        self.cuts = [slice((it.first or 1) - 1, it.last()) for it in (one, other)]

    def take(self, raw: bytes) -> None:
        """Takes the fields of a record as they stand, with their blanks."""
        here, there = self.cuts
        partner = raw[there]
        found = self.partners.setdefault(raw[here], partner)
        if found != partner and found.strip(BLANKS) != partner.strip(BLANKS):
            self.holds = False

    def settle(self) -> None:
        """Takes the blanks off, by which fields may differ that are one code."""
        partners: Partners = {}
        for code, partner in self.partners.items():
            partner = partner.strip(BLANKS)
            self.holds = self.holds and partners.setdefault(code.strip(BLANKS), partner) == partner
        self.partners = partners

    def is_telling(self) -> bool:
        """Whether it holds, and the other variable has at least two codes."""
        return self.holds and len(set(self.partners.values())) > 1


class Pair(NamedTuple):
    """Two variables that overlap: both ways to look at them, and the bytes that they share, from
    the first to the last (0 where none)."""

    sides: Tuple[Side, Side]
    first: int
    last: int


def shared_bytes(one: Variable, other: Variable) -> Tuple[int, int]:
    """The first and the last byte of a record that two fields share; 0 and 0 where they share
    none."""
    first, last = max(one.first or 1, other.first or 1), min(one.last(), other.last())
    return (first, last) if first <= last else (0, 0)


def pairs_of(data: Microdata) -> List[Pair]:
    """The pairs of spanning variables that overlap. A way to look at a pair that doesn't hold is
    left at the first record that shows it."""
    clear = [it for it in data.names.spanning if it.is_clear()]
    pairs = [
        Pair((Side(one, other), Side(other, one)), *shared_bytes(one, other))
        for one, other in itertools.combinations(clear, 2)
    ]
    live = [side for pair in pairs for side in pair.sides]
    for record in data.rows():
        is_over = False
        for side in live:
            side.take(record.raw)
            is_over = is_over or not side.holds
        if is_over:
            live = [it for it in live if it.holds]
        if not live:
            break
    for side in live:
        side.settle()
    return [it for it in pairs if it.first or any(side.is_telling() for side in it.sides)]


def grown(variable: Variable, codes: Set[bytes]) -> Tree:
    """The tree of a variable; where its files can't be read, its codes right below the total."""
    try:
        return tree_of(variable, codes - {variable.total()})
    except Unread:
        return Tree(variable.total())


def cut(tree: Tree, code: bytes, level: int) -> bytes:
    """The code down to a level under which a code lies."""
    return tree.codes[tree.up(tree.at[code], level)[0]] if code in tree.at else code


class Fit(NamedTuple):
    """The level of the finer variable that stands for the coarser one, and whether its tree has
    this level already."""

    level: int
    is_there: bool


def fit_of(tree: Tree, partners: Partners) -> Fit:
    """The level at which codes of the tree and their partners go together, by name if there is one;
    else the level where it would be: the first one below those that the partners tell."""
    told, fitting = 0, []
    for level in range(1, max(tree.depths, default=0) + 1):
        both = {(cut(tree, code, level), it) for code, it in partners.items()}
        uppers, others = {it for it, _ in both}, {it for _, it in both}
        if len(both) == len(others):
            told = level
            if len(both) == len(uppers):
                fitting.append((not all(upper == it for upper, it in both), level))
    return Fit(min(fitting)[1], True) if fitting else Fit(min(told + 1, MOST_LEVEL), False)


class Doubt:
    """What is said of a pair of which one is finer."""
    def __init__(self, data: Microdata, side: Side):
        self.job, self.side = data.job, side
        self.finer, self.coarser = shown_name(side.one.name), shown_name(side.other.name)
        self.tree = grown(side.one, set(side.partners))
        self.others = grown(side.other, set(side.partners.values()))

    def fit(self, table: int) -> Fit:
        """The level for a table that shows the coarser variable down to its own level."""
        level = self.job.level(table, self.side.other.name)
        return fit_of(
            self.tree,
            {code: cut(self.others, it, level)
             for code, it in self.side.partners.items()})

    def remedy(self) -> str:
        """The DEPTH lines that would say it, and what the tables would be by."""
        one, other = self.side.one.name, self.side.other.name
        tables = [(t, it.variables) for t, (_, it) in enumerate(self.job.tables(), 1)
                  if other in it.variables]
        both = [t for t, it in tables if one in it]
        alone = [t for t, it in tables if one not in it]
        fits = {t: self.fit(t) for t, _ in tables}
        lines = listed([
            "<DEPTH> (%d,\"%s\",%d)" % (t, shown(one)[1:-1], fits[t].level) for t in alone or both
        ])
        said = ["%s %s out" % (numbered(both, "leaves", "leave"), self.coarser)] if both else []
        said += [
            "%s %s in place of %s, with %s" %
            (numbered(alone, "takes", "take"), self.finer, self.coarser, lines)
        ] if alone else []
        said[-1] += "; with %s it shows the codes of %s alone" % (lines,
                                                                  self.coarser) if not alone else ""
        lacking = sorted({it.level for it in fits.values() if not it.is_there})
        first = "%s gets a hierarchy with the codes of %s as level %s, " % (
            self.finer, self.coarser, listed(map(str, lacking))) if lacking else ""
        return "If they are one classification, %s%s." % (first + "and " if first else "",
                                                          ", and ".join(said))


def numbered(tables: List[int], one: str, many: str) -> str:
    """Tables with a verb: `table 2 takes`, `tables 2 and 3 take`."""
    return "table%s %s %s" % ("s" if len(tables) > 1 else "", listed(map(
        str, tables)), many if len(tables) > 1 else one)


def finer_side(pair: Pair) -> Optional[Side]:
    """The side whose first variable is the finer one, if one is: of two that tell each other the
    one with more levels, or the wider one."""
    def depth(side: Side) -> Tuple[int, int]:
        return max(grown(side.one, set(side.partners)).depths), side.one.width or 1

    holding = [it for it in pair.sides if it.holds]
    return max(holding, key=depth) if holding else None


def why(pair: Pair) -> str:
    """Why the two are said to overlap."""
    telling = [it for it in pair.sides if it.is_telling()]
    said = ["they share %s of the record" %
            bytes_range(pair.first, pair.last)] if pair.first else []
    if len(telling) == 2:
        said.append("each code of one occurs with a single code of the other")
    elif telling:
        said.append("each code of %s occurs with a single code of %s" %
                    (shown_name(telling[0].one.name), shown_name(telling[0].other.name)))
    return " and ".join(said)


def unclear(data: Microdata, pair: Pair) -> str:
    """What is said where neither is finer."""
    one, other = (it.one.name for it in pair.sides)
    table = next((t for t, (_, it) in enumerate(data.job.tables(), 1) if one in it.variables), 1)
    return ("Neither is a level of the other. If they are parts of one classification, make it one "
            "variable with levels, and let each table take it down to its own, as with <DEPTH> "
            "(%d,\"%s\",1).") % (table, shown(one)[1:-1])


def overlaps(data: Microdata) -> List[str]:
    """A doubt for each pair of spanning variables that overlap."""
    said = []
    for pair in pairs_of(data):
        side = finer_side(pair)
        names = " and ".join(shown_name(it.one.name) for it in pair.sides)
        rest = Doubt(data, side).remedy() if side else unclear(data, pair)
        said.append(
            "%s: %s overlap: %s. argus knows no sums between the two, and a reader of several "
            "tables can add up across them. %s" %
            (shown_name(data.job.name), names, why(pair), rest))
    return said
