"""Metadata, code lists and hierarchies: where a variable stands in a record, and the tree of its
codes (manual: Metadata; Hierarchies and code lists).
"""
import re
from typing import Callable, Dict, List, NamedTuple, Optional, Tuple

from argus_outside.job import LEVELS, Job, fault as job_fault
from argus_outside.texts import BLANKS, FILE_NAME, Unreadable, lines, whole, whole_in

CODES = 5000  # codes of a variable besides the total
PASSED_OVER = (b"REQUEST", b"HOLDING", b"DISTANCE")
KEYWORDS = PASSED_OVER + (b"RECODEABLE", b"RECODABLE", b"NUMERIC", b"DECIMALS", b"WEIGHT",
                          b"CODELIST", b"HIERARCHICAL", b"HIERLEVELS", b"HIERCODELIST",
                          b"HIERLEADSTRING", b"TOTCODE")

WORD = re.compile(rb'"([^"]*)"|([^ \t]+)', re.S)


class Variable:
    """A variable of the metadata. Positions and widths are bytes; the first position is 1."""
    def __init__(self, line: int, name: bytes, first: int, width: int,
                 missing: List[bytes]) -> None:
        self.line, self.name, self.first, self.width = line, name, first, width
        self.missing = missing
        self.numeric = self.weight = False
        self.decimals = 0
        self.total, self.lead = b"Total", b"@"
        self.codes: Optional[bytes] = None  # name of the code list
        self.hierarchy: Optional[bytes] = None  # name of the hierarchy file
        self.levels: List[int] = []
        self.keywords: List[bytes] = []

    @property
    def field(self) -> slice:
        """The bytes of the field within a record."""
        return slice(self.first - 1, self.first - 1 + self.width)


class Bound(NamedTuple):
    """A job's variables: spanning ones in metadata order, each table as places in that list, the
    response and the weight.
    """
    spanning: List[Variable]
    numbers: List[int]  # of the spanning variables in the metadata, from 1
    tables: List[List[int]]
    depths: List[
        List[int]]  # per table and variable of it, the level down to which its tree is taken
    response: Variable
    weight: Optional[Variable]

    @property
    def decimals(self) -> int:
        """Decimals of a unit: the response's, and the weight's in addition."""
        return self.response.decimals + (self.weight.decimals if self.weight else 0)


def fault(line: int, kind: str, words: str) -> Unreadable:
    """A fault of the metadata."""
    return Unreadable("metadata", line, kind, words)


def words_of(text: bytes) -> List[bytes]:
    """Words: in quotes, or a run without blanks.

    A quote without a second one in the line is part of its run.
    """
    return [run or quoted for quoted, run in WORD.findall(text)]


def _variable(number: int, text: bytes, before: List[Variable]) -> Variable:
    """A variable line: name, first position, width, at most two missing codes."""
    name, *rest = words_of(text)
    if not 1 <= len(name) <= 64:
        raise fault(number, "BadName", "a variable's name has 1 to 64 bytes")
    first = whole_in(rest[0], 1, 1000) if len(rest) > 1 else None
    width = whole_in(rest[1], 1, 255) if len(rest) > 1 else None
    if first is None or width is None or first + width - 1 > 1000:
        raise fault(number, "BadPlace",
                    "the position or the width is missing, no number, or out of range")
    if len(rest) > 4:
        raise fault(number, "BadValue", "a variable has at most two missing codes")
    if any(variable.name == name for variable in before):
        raise fault(number, "Twice", "an earlier variable has this name")
    if len(before) == 64:
        raise fault(number, "TooMany", "there are more than 64 variables")
    return Variable(number, name, first, width, [code.strip(BLANKS) for code in rest[2:]])


def _levels(arguments: List[bytes], width: int) -> Optional[List[int]]:
    """The widths of HIERLEVELS: zeros at the end add no level, at most nine, and they add up to the
    field's width.
    """
    said = [whole(word) for word in arguments]
    numbers = [number for number in said if number is not None]
    if len(numbers) != len(said):
        return None
    while numbers and numbers[-1] == 0:
        numbers.pop()
    good = 1 <= len(numbers) <= LEVELS and 0 not in numbers and sum(numbers) == width
    return numbers if good else None


def _set(variable: Variable, keyword: bytes, arguments: List[bytes]) -> bool:
    """Puts a keyword's meaning into its variable; False where the arguments aren't as they should
    be.
    """
    if keyword in PASSED_OVER:
        return True
    if keyword == b"HIERLEVELS":
        levels = _levels(arguments, variable.width)
        variable.levels = levels or []
        return levels is not None
    if keyword in (b"RECODEABLE", b"RECODABLE", b"NUMERIC", b"WEIGHT", b"HIERARCHICAL"):
        variable.numeric = variable.numeric or keyword in (b"NUMERIC", b"WEIGHT")
        variable.weight = variable.weight or keyword == b"WEIGHT"
        return not arguments
    if len(arguments) != 1:
        return False
    word = arguments[0]
    if keyword == b"DECIMALS":
        decimals = whole_in(word, 0, 9)
        variable.decimals = decimals or 0
        return decimals is not None
    if keyword == b"TOTCODE":
        variable.total = word.strip(BLANKS)
        return True
    if keyword == b"HIERLEADSTRING":
        variable.lead = word
        return 1 <= len(word) <= 8 and not any(blank in word for blank in (b" ", b"\t"))
    if keyword == b"CODELIST":
        variable.codes = word
    else:
        variable.hierarchy = word
    return FILE_NAME.fullmatch(word) is not None


def _keyword(number: int, text: bytes, variables: List[Variable]) -> None:
    """A keyword line, which belongs to the variable line before it."""
    close = text.find(b">")
    keyword = text[1:max(close, 1)].upper()
    if close < 0 or keyword not in KEYWORDS:
        raise fault(number, "UnknownKeyword", "there is no such keyword")
    if not variables:
        raise fault(number, "BadName", "a keyword comes before the first variable")
    variable = variables[-1]
    again = keyword in variable.keywords or keyword == b"WEIGHT" and any(v.weight
                                                                         for v in variables)
    if not _set(variable, keyword, words_of(text[close + 1:])):
        raise fault(number, "BadValue",
                    "what follows the keyword isn't as it should be, or is out of range")
    if again:
        raise fault(number, "Twice",
                    "the variable has this keyword already, or another variable is the weight")
    if keyword not in PASSED_OVER:
        variable.keywords.append(keyword)


def read_metadata(data: bytes) -> List[Variable]:
    """The variables of these bytes, or the first fault."""
    variables: List[Variable] = []
    for number, line in enumerate(lines(data), 1):
        text = line.strip(BLANKS)
        if text.startswith(b"<"):
            _keyword(number, text, variables)
        elif text:
            variables.append(_variable(number, text, variables))
    for variable in variables:
        has = variable.keywords
        either = b"HIERLEVELS" in has or b"HIERCODELIST" in has
        both = b"HIERLEVELS" in has and b"HIERCODELIST" in has
        if (both or b"HIERARCHICAL" in has and not either or variable.numeric and either
                or variable.weight and variable.decimals > 4):
            raise fault(variable.line, "Clash", "keywords of the variable don't go together")
    return variables


def bind(job: Job, variables: List[Variable]) -> Bound:
    """Looks up the job's variables, or gives the topmost line that the metadata don't fit."""
    by_name = {variable.name: variable for variable in variables}
    named = {name for table in job.tables for name in table.variables}
    spanning = [variable for variable in variables if variable.name in named]
    found: List[Tuple[int, int, str, str]] = []  # line, place of the kind in its order, kind, words
    for table in job.tables:
        asked = [by_name[name] for name in table.variables if name in by_name]
        response = by_name.get(table.response)
        if len(asked) != len(table.variables) or response is None:
            found.append((table.line, 0, "NoSuchVariable", "the metadata have no such variable"))
        elif any(variable.numeric for variable in asked):
            found.append((table.line, 1, "NotSpanning", "a number can't span a table"))
        elif not response.numeric:
            found.append((table.line, 2, "NotNumeric", "the response isn't a number"))
    weights = [variable for variable in variables if variable.weight]
    if job.weighted and not weights:
        found.append((job.lines_of["SAFETYRULE"], 3, "NoWeight", "the metadata have no weight"))
    read = [
        name for variable in spanning for name in (variable.codes, variable.hierarchy)
        if name is not None
    ]
    for line, name in job.written():
        if name in read:
            found.append((line, 4, "SameName",
                          "the line writes a file that the metadata name for a spanning variable"))
    if found:
        line, _, kind, words = min(found)
        raise job_fault(line, kind, words)
    places = {variable.name: place for place, variable in enumerate(spanning)}
    numbers = [1 + variables.index(variable) for variable in spanning]
    tables = [[places[name] for name in table.variables] for table in job.tables]
    said = {(depth.table, depth.variable): depth.level for depth in job.depths}
    depths = [[said.get((number, name), LEVELS) for name in table.variables]
              for number, table in enumerate(job.tables, 1)]
    return Bound(spanning, numbers, tables, depths, by_name[job.tables[0].response],
                 weights[0] if job.weighted else None)


class Tree:
    """Codes in preorder, each with its parent.

    Place 0 is the total; children stand in the order of the tree.
    """
    def __init__(self, total: bytes) -> None:
        self.codes, self.parents, self.depths = [total], [0], [0]
        self.children: List[List[int]] = [[]]
        self.places: Dict[bytes, int] = {total: 0}

    def add(self, code: bytes, parent: int) -> int:
        """Puts a code as last child of its parent and gives its place."""
        place = len(self.codes)
        self.codes.append(code)
        self.parents.append(parent)
        self.depths.append(self.depths[parent] + 1)
        self.children.append([])
        self.children[parent].append(place)
        self.places[code] = place
        return place


class CutTree:
    """The codes of a tree that a table has: those down to a level, by their places in the tree."""
    def __init__(self, tree: Tree, level: int) -> None:
        self.tree, self.level = tree, level
        self.places = [place for place, depth in enumerate(tree.depths) if depth <= level]

    def has(self, place: int) -> bool:
        """Whether the code lies no deeper than the table goes."""
        return self.tree.depths[place] <= self.level

    def children(self, place: int) -> List[int]:
        """The codes right below; a code on the last level has none."""
        return self.tree.children[place] if self.tree.depths[place] < self.level else []

    def reached(self, place: int) -> int:
        """The place itself where the table has it, and else the one above it on the table's last
        level.
        """
        while not self.has(place):
            place = self.tree.parents[place]
        return place


def read_codes(data: bytes, total: bytes, where: str) -> List[bytes]:
    """A code list's codes: what stands before the first comma, without one pair of quotes round it.
    """
    codes: Dict[bytes, None] = {}
    for number, line in enumerate(lines(data), 1):
        code = line.split(b",", 1)[0].strip(BLANKS)
        if len(code) > 1 and code.startswith(b'"') and code.endswith(b'"'):
            code = code[1:-1]
        if code and code != total and code not in codes:
            if len(codes) == CODES:
                raise Unreadable(where, number, "TooMany", "there are more than 5,000 codes")
            codes[code] = None
    return list(codes)


# Makes a fault of a line: its number, its kind, and words.
Fault = Callable[[int, str, str], Unreadable]


def read_hierarchy(data: bytes, variable: Variable, where: str) -> Tree:
    """A hierarchy file: as many leads as the depth below the first level, then the code; missing
    codes come last.
    """
    def bad(number: int, kind: str, words: str) -> Unreadable:
        return Unreadable(where, number, kind, words)

    tree, path = Tree(variable.total), [0]
    for number, line in enumerate(lines(data), 1):
        if not line.strip(BLANKS):
            continue
        leads = 0
        while line.startswith(variable.lead, leads * len(variable.lead)):
            leads += 1
        code = line[leads * len(variable.lead):].strip(BLANKS)
        if not code:
            raise bad(number, "NoCode", "a lead has no code behind it")
        if leads >= len(path):
            raise bad(number, "Jump", "the line is more than one level deeper than the line before")
        if leads >= LEVELS:
            raise bad(number, "TooDeep", "the code is deeper than nine levels")
        _listed(tree, code, number, bad)
        path[leads + 1:] = [tree.add(code, path[leads])]
    for number, code in enumerate(variable.missing, 1):
        if code not in tree.places or code == variable.total:
            _listed(tree, code, number, bad)
            tree.add(code, 0)
    return tree


def _listed(tree: Tree, code: bytes, number: int, bad: Fault) -> None:
    """The faults of one further code of a hierarchy."""
    if code == tree.codes[0]:
        raise bad(number, "IsTotal", "the code is that of the total")
    if code in tree.places:
        raise bad(number, "Twice", "an earlier line has the same code")
    if len(tree.codes) > CODES:
        raise bad(number, "TooMany", "there are more than 5,000 codes")
