"""The tree of a variable's codes: from a hierarchy file, from levels, or flat."""

from typing import Iterable, List, NamedTuple, Set, Tuple

from argus_office.reading.files import BLANKS, content, lines_of
from argus_office.reading.metadata import Variable

MOST_CODES, MOST_DEPTH = 5000, 9


class Tree:
    """A variable's codes in preorder, each with the place of its parent; place 0 is the total."""
    def __init__(self, total: bytes):
        self.codes, self.parents, self.depths, self.at = [total], [-1], [0], {total: 0}

    def add(self, code: bytes, parent: int) -> int:
        """Adds a code; one that is there stays where it is."""
        if code not in self.at:
            self.at[code] = len(self.codes)
            self.codes.append(code)
            self.parents.append(parent)
            self.depths.append(self.depths[parent] + 1)
        return self.at[code]

    def has(self, code: bytes, level: int) -> bool:
        """Whether a code is one of the tree, and lies no deeper than a level."""
        return code in self.at and self.depths[self.at[code]] <= level

    def within(self, level: int) -> List[int]:
        """The places down to a level; the total has level 0."""
        return [place for place, it in enumerate(self.depths) if it <= level]

    def children(self) -> List[List[int]]:
        """For each place the places right below it."""
        found: List[List[int]] = [[] for _ in self.codes]
        for place, parent in enumerate(self.parents):
            if parent >= 0:
                found[parent].append(place)
        return found

    def up(self, place: int, level: int = MOST_DEPTH) -> List[int]:
        """The place itself, its parent, and so on to the total, as far as they lie no deeper than a
        level."""
        found = [place]
        while self.parents[found[-1]] >= 0:
            found.append(self.parents[found[-1]])
        return found[max(len(found) - 1 - level, 0):]


class Row(NamedTuple):
    """A line of a hierarchy file that has a code, or leads: its number, its depth and the code."""

    line: int
    depth: int
    code: bytes


def rows_in(lines: Iterable[bytes], lead: bytes) -> List[Row]:
    """The lines of a hierarchy file that aren't empty."""
    found = []
    for number, line in enumerate(lines, 1):
        depth = 0
        while lead and line.startswith(lead, depth * len(lead)):
            depth += 1
        if line.strip(BLANKS):
            found.append(Row(number, depth, line[depth * len(lead):].strip(BLANKS)))
    return found


class Listing:
    """A hierarchy file: its bytes, its lines, and those that aren't empty."""
    def __init__(self, name: bytes, lead: bytes) -> None:
        self.name, self.data = name, content(name)
        self.raw = lines_of(self.data)
        self.rows = rows_in(self.raw, lead)


def from_file(variable: Variable) -> Tree:
    """The tree of a variable with a hierarchy file; lines that argus would refuse are passed over.
    """
    tree, above = Tree(variable.total()), [0]
    for _, depth, code in Listing(variable.says("HIERCODELIST") or b"", variable.lead()).rows:
        if code and code not in tree.at and depth < MOST_DEPTH:
            above = above[:depth + 1]
            above.append(tree.add(code, above[-1]))
    for code in variable.missing:
        tree.add(code, 0)
    return tree


def prefixes(code: bytes, widths: List[int]) -> List[bytes]:
    """The parts of a code that end where a width ends, without the whole code."""
    found, at = [], 0
    for width in widths:
        at += width
        if 0 < at < len(code):
            found.append(code[:at])
    return found


def from_levels(variable: Variable, codes: Set[bytes]) -> Tree:
    """The tree of codes by digits, in ascending order of bytes."""
    tree, widths = Tree(variable.total()), variable.levels()
    every = set(codes)
    for code in codes:
        every.update(prefixes(code, widths))
    for code in sorted(every):
        inner = [it for it in prefixes(code, widths) if it in tree.at]
        tree.add(code, tree.at[inner[-1]] if inner else 0)
    return tree


def labelled_codes(name: bytes) -> List[Tuple[bytes, bytes]]:
    """The lines of a code list that have a code: the code, and the label behind the comma."""
    found = []
    for line in lines_of(content(name)):
        code, _, label = line.partition(b",")
        if unquoted(code):
            found.append((unquoted(code), unquoted(label)))
    return found


def unquoted(text: bytes) -> bytes:
    """A text without the blanks and the quotes around it."""
    text = text.strip(BLANKS)
    return text[1:-1] if len(text) > 1 and text[:1] == text[-1:] == b'"' else text


def code_list(name: bytes) -> List[bytes]:
    """The codes of a code list, each once."""
    return list(dict.fromkeys(code for code, _ in labelled_codes(name)))


def flat(variable: Variable, codes: Set[bytes]) -> Tree:
    """The tree of a variable without levels: the codes of its list, then those of records in
    ascending order."""
    tree, name = Tree(variable.total()), variable.says("CODELIST")
    for code in code_list(name) if name is not None else []:
        tree.add(code, 0)
    for code in sorted(codes):
        tree.add(code, 0)
    return tree


def kind_of(variable: Variable) -> str:
    """Where a variable's tree comes from: `file`, `levels` or `flat`."""
    if "HIERCODELIST" in variable.keywords:
        return "file"
    return "levels" if "HIERLEVELS" in variable.keywords else "flat"


def tree_of(variable: Variable, codes: Set[bytes]) -> Tree:
    """The tree of a variable, with the codes that records have."""
    kind = kind_of(variable)
    if kind == "file":
        return from_file(variable)
    return from_levels(variable, codes) if kind == "levels" else flat(variable, codes)
