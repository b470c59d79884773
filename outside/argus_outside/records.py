"""The microdata: every record's codes, value and weight, and the trees of the codes (manual:
Records)."""
from operator import itemgetter
from typing import Callable, Dict, List, NamedTuple, Optional, Set, Tuple

from argus_outside.metadata import CODES, Bound, Tree, Variable, read_codes, read_hierarchy
from argus_outside.texts import BLANKS, Unreadable, read_file, units

RECORDS = 1000000
RECORD_BYTES = 1000
RESPONSE = 10**15  # a response is below this, in its last decimal
WEIGHT = 10**8  # a weight is below this, in its last decimal
Pair = Tuple[int, int]  # a record's value, and its weight in steps


class Group:
    """The records of one combination of codes: the first one's number among those that count, and
    their pairs.
    """
    __slots__ = ("codes", "row", "pairs")

    def __init__(self, codes: Tuple[bytes, ...], row: int) -> None:
        self.codes, self.row = codes, row
        self.pairs: List[Pair] = []


class Records(NamedTuple):
    """What the microdata hold: groups by combination, how many records count and are skipped, and a
    tree per variable.
    """
    groups: List[Group]
    size: int
    skipped: int
    trees: List[Tree]


def fault(number: int, kind: str, words: str) -> Unreadable:
    """A fault of a record."""
    return Unreadable("record %d" % number, None, kind, words)


class Codes:
    """The codes of one spanning variable, as the records bring them in."""
    def __init__(self, variable: Variable, number: int) -> None:
        self.variable, self.listed, self.start = variable, None, [
        ]  # type: Variable, Optional[Tree], List[bytes]
        if variable.codes is not None:
            where = "codelist %d" % number
            self.start = read_codes(read_file(variable.codes, where), variable.total, where)
        if variable.hierarchy is not None:
            where = "hierarchy %d" % number
            self.listed = read_hierarchy(read_file(variable.hierarchy, where), variable, where)
        self.flat = not variable.levels and self.listed is None
        self.ends = [sum(variable.levels[:k + 1]) for k in range(len(variable.levels))]
        self.known: Set[bytes] = set(self.start) if self.flat else set()
        self.first_record: Dict[bytes, int] = {}

    def prefixes(self, code: bytes) -> List[bytes]:
        """The parts of a levels code at the ends of its levels that are shorter than the code."""
        return [code[:end] for end in self.ends if end < len(code)]

    def take(self, code: bytes, number: int) -> None:
        """A code, at the first record that has it, or its fault."""
        total = self.variable.total
        if self.listed is not None and code not in self.listed.places:
            raise fault(number, "UnknownCode", "the hierarchy file doesn't have the code")
        parts = self.prefixes(code)
        if self.ends and (any(blank in code for blank in (b" ", b"\t")) or len(code) > self.ends[-1]
                          or total in parts):
            raise fault(number, "UnknownCode",
                        "the code has a blank inside, is too long, or lies below the total's code")
        if code == total or self.listed is not None and self.listed.children[
                self.listed.places[code]]:
            raise fault(number, "NotLeaf", "the code is the total, or has codes below it")
        if self.listed is None:
            self.known.update(parts)
            self.known.add(code)
            if len(self.known) > CODES:
                raise fault(number, "TooManyCodes",
                            "with this code there are more than 5,000 codes")
        self.first_record[code] = number

    def tree(self) -> Tree:
        """The tree: that of the file; the list's codes and then the others ascending; or the
        levels' parts ascending.
        """
        if self.listed is not None:
            return self.listed
        tree = Tree(self.variable.total)
        if self.flat:
            for code in self.start + sorted(self.known.difference(self.start)):
                tree.add(code, 0)
            return tree
        for code in sorted(self.known):
            parts = self.prefixes(code)
            tree.add(code, tree.places[parts[-1]] if parts else 0)
        return tree


def _response(raw: bytes, decimals: int, number: int) -> int:
    """A response in its last decimal, or its fault."""
    if raw.startswith(b"-"):
        raise fault(number, "Negative", "the response is negative")
    value = units(raw, decimals)
    if value is None or value >= RESPONSE:
        raise fault(number, "BadNumber",
                    "the response is no number, has too many decimals, or is too large")
    return value


def _weight(raw: bytes, decimals: int, number: int) -> int:
    """A weight in its last decimal, or its fault."""
    weight = units(raw, decimals)
    if weight is None or weight >= WEIGHT:
        raise fault(number, "BadNumber",
                    "the weight is blank, no number, has too many decimals, or is too large")
    if weight < 10**decimals:
        raise fault(number, "LightWeight", "the weight is below 1")
    return weight


def _lengths(line: bytes, number: int, needed: int) -> None:
    """The faults of a record's length, and of one record too many."""
    if len(line) > RECORD_BYTES:
        raise fault(number, "TooLong", "the record has more than 1,000 bytes")
    if number > RECORDS:
        raise fault(number, "TooMany", "there are more than 1,000,000 records")
    if len(line) < needed:
        raise fault(number, "Short", "the record has fewer than %d bytes" % needed)


def _value_reader(bound: Bound) -> Callable[[bytes, int], Optional[int]]:
    """Reads a record's response in its last decimal; None where it is blank or missing, so that the
    record is skipped.
    """
    field, missing, decimals = bound.response.field, set(
        bound.response.missing), bound.response.decimals
    scale = 10**decimals

    def read(line: bytes, number: int) -> Optional[int]:
        raw = line[field].strip(BLANKS)
        if not raw or raw in missing:
            return None
        return int(raw) * scale if raw.isdigit() and len(raw) + decimals < 16 else _response(
            raw, decimals, number)

    return read


def read_records(data: bytes, bound: Bound, sources: List[Codes]) -> Records:
    """All records of the microdata by combination of codes, or the first fault."""
    pieces = data.split(b"\n")
    data, last = b"", len(pieces) - 1
    fields = [variable.field for variable in bound.spanning]
    looked_at = fields + [v.field for v in (bound.response, bound.weight) if v]
    needed, codes_of, value_of, weight = max(
        f.stop for f in looked_at), itemgetter(*fields), _value_reader(bound), bound.weight
    by_bytes: Dict[object, Group] = {}
    by_codes: Dict[Tuple[bytes, ...], Group] = {}
    number = count = 0
    for place, line in enumerate(pieces):
        if line.endswith(b"\r") and place < last:
            line = line[:-1]
        if not line:
            continue
        number += 1
        if number > RECORDS or not needed <= len(line) <= RECORD_BYTES:
            _lengths(line, number, needed)
        value = value_of(line, number)
        if value is None:
            continue
        steps = _weight(line[weight.field].strip(BLANKS), weight.decimals, number) if weight else 1
        key = codes_of(line)
        group = by_bytes.get(key)
        if group is None:
            codes = tuple(line[field].strip(BLANKS) for field in fields)
            for source, code in zip(sources, codes):
                if code not in source.first_record:
                    source.take(code, number)
            group = by_bytes[key] = by_codes.setdefault(codes, Group(codes, count))
        group.pairs.append((value, steps))
        count += 1
    return Records(list(by_codes.values()), count, number - count, _trees(sources))


def _trees(sources: List[Codes]) -> List[Tree]:
    """The trees; a levels code that other codes lie below is found now, at its first record."""
    trees = [source.tree() for source in sources]
    inner = [(number, place) for place, source in enumerate(sources) if source.ends
             for code, number in source.first_record.items()
             if trees[place].children[trees[place].places[code]]]
    if inner:
        raise fault(min(inner)[0], "NotLeaf", "other codes lie below the record's code")
    return trees
