"""The arguments of a job's commands, read as the manual's table of commands has them, with what is
wrong and where.

Each reader goes over the bytes behind `<WORD>` and gives what they say, or raises `Wrong` with the
place of the first fault and what may stand there. Places are counted in the whole line, from 0.
"""

import re
from typing import Callable, Dict, List, NamedTuple, Optional, Tuple

from argus_office.reading.files import BLANKS, grouped, is_number
from argus_office.reading.words import curled_in, nearest

MOST_NAME = 255
RULES = ("FREQ", "NK", "P", "PQ", "ZERO", "MAN", "WGT")
# For each rule its form, and for each of its numbers the name and the range.
RANGES: Dict[str, Tuple[str, List[Tuple[str, int, int]]]] = {
    "FREQ": ("FREQ(n,r)", [("n", 1, 1000000), ("r", 0, 1000)]),
    "NK": ("NK(n,k)", [("n", 1, 10), ("k", 1, 100)]),
    "P": ("P(p)", [("p", 1, 1000)]),
    "PQ": ("PQ(p,q)", [("p", 1, 1000), ("q", 1, 1000)]),
    "ZERO": ("ZERO(r)", [("r", 1, 10**9)]),
    "MAN": ("MAN(r)", [("r", 0, 1000)]),
    "WGT": ("WGT(w)", [("w", 0, 1)]),
}
METHODS: Dict[str, Tuple[str, List[Tuple[str, int, int]]]] = {
    "GH": ("GH(n)", [("n", 1, 8)]),
    "MOD": ("MOD()", []),
    "RND": ("RND(b)", [("b", 1, 10**9)]),
}


def form_of(form: str, numbers: List[Tuple[str, int, int]]) -> str:
    """A form with the ranges of its numbers: `NK(n,k): n from 1 to 10, k from 1 to 100`."""
    said = ["%s from %s to %s" % (name, grouped(low), grouped(high)) for name, low, high in numbers]
    return "%s: %s" % (form, ", ".join(said)) if said else form


class Wrong(Exception):
    """The first fault of an argument: from which byte of the line to which (the end not counted),
    and what is wrong in a sentence."""
    def __init__(self, at: int, end: int, why: str):
        super().__init__(at, end, why)
        self.at, self.end, self.why = at, end, why


class Scanner:
    """Goes over a line from a place on, token by token."""
    def __init__(self, line: bytes, at: int):
        self.line, self.at = line, at
        self.skip()

    def skip(self) -> None:
        """Goes over blanks."""
        while self.at < len(self.line) and self.line[self.at] in BLANKS:
            self.at += 1

    def is_done(self) -> bool:
        """Whether the line is at its end."""
        return self.at >= len(self.line)

    def peek(self) -> bytes:
        """The next byte; none at the end."""
        return self.line[self.at:self.at + 1]

    def takes(self, byte: bytes) -> bool:
        """Goes over a byte where it is the next one, and says whether it is."""
        if self.peek() != byte:
            return False
        self.at += 1
        self.skip()
        return True

    def run(self, is_in: Callable[[int], bool]) -> bytes:
        """Goes over the bytes that are in a set, and gives them."""
        start = self.at
        while self.at < len(self.line) and is_in(self.line[self.at]):
            self.at += 1
        found = self.line[start:self.at]
        self.skip()
        return found

    def rest(self) -> bytes:
        """What is left of the line."""
        return self.line[self.at:].rstrip(BLANKS)

    def wrong(self, why: str, at: Optional[int] = None, end: Optional[int] = None) -> Wrong:
        """A fault here: the token that begins at this place, or the range that is given."""
        start = self.at if at is None else at
        if end is None:
            end = start
            marks = BLANKS + b",;&+|()"
            while end < len(self.line) and (end == start or (self.line[start] not in marks
                                                             and self.line[end] not in marks)):
                end += 1
        return Wrong(start, max(end, start), why)

    def needs(self, byte: bytes, why: str) -> None:
        """Goes over a byte. Raises Wrong where another one is the next."""
        if not self.takes(byte):
            raise self.wrong(why)

    def ends(self, why: str) -> None:
        """Raises Wrong where something is left."""
        if not self.is_done():
            raise self.wrong(why, self.at, len(self.line.rstrip(BLANKS)))

    def number(self, what: str, low: int, high: int) -> int:
        """A whole number in its range. Raises Wrong where there is none."""
        start = self.at
        digits = self.run(lambda it: 48 <= it <= 57)
        if not digits:
            raise self.wrong(
                "%s is a whole number from %s to %s." % (what, grouped(low), grouped(high)), start)
        end = start + len(digits)
        if self.peek() in (b".", b"-", b"+") or (self.at == end and self.peek().isalpha()):
            raise self.wrong("%s is a whole number: digits and nothing else." % what, start)
        value = int(digits) if len(digits) < 60 else 10**60
        if not low <= value <= high:
            raise Wrong(start, end, "%s goes from %s to %s." % (what, grouped(low), grouped(high)))
        return value

    def quoted(self, what: str, example: str) -> bytes:
        """What stands between straight double quotes."""
        start = self.at
        if self.peek() != b'"':
            raise self.unquoted(what, example)
        end = self.line.find(b'"', start + 1)
        if end < 0:
            raise Wrong(start, len(self.line.rstrip(BLANKS)),
                        "The second double quote is missing: %s." % example)
        self.at = end + 1
        self.skip()
        return self.line[start + 1:end]

    def unquoted(self, what: str, example: str) -> Wrong:
        """What is wrong where a double quote is wanted."""
        rest = self.rest()
        if not rest:
            return Wrong(self.at, self.at, "Here %s is missing: %s." % (what, example))
        curled = curled_in(rest)
        if curled == 0:
            return self.wrong(
                "These are curled quotes, as a word processor puts them. Straight ones are "
                "wanted: %s." % example)
        if rest[:1] == b"'":
            return self.wrong("These are single quotes. Double ones are wanted: %s." % example)
        return self.wrong("%s is wanted here in straight double quotes: %s." %
                          (what[:1].upper() + what[1:], example))

    def file(self, what: str, example: str) -> bytes:
        """The name of a file, in its limits."""
        start = self.at
        name = self.quoted(what, example)
        end = start + len(name) + 2
        if not name:
            raise Wrong(start, end, "The name is empty: %s." % example)
        if len(name) > MOST_NAME:
            raise Wrong(start, end,
                        "The name has %d bytes; a name of a file has 255 at most." % len(name))
        odd = next((k for k, it in enumerate(name) if not 32 <= it < 127), None)
        if odd is not None:
            raise Wrong(
                start + 1 + odd, start + 2 + odd,
                "A name of a file has printable ASCII letters alone (no umlauts, accents or "
                "tabs); this "
                "byte is %02x. Give the file another name." % name[odd])
        return name


def file_alone(scan: Scanner, what: str, example: str) -> bytes:
    """The argument of a command that has the name of a file alone."""
    name = scan.file(what, example)
    scan.ends("Nothing may follow the name.")
    return name


def nothing(scan: Scanner) -> None:
    """The argument of a command that has none."""
    scan.ends("This command has no argument.")


class Table(NamedTuple):
    """What a line SPECIFYTABLE says."""

    variables: List[bytes]
    response: bytes


TABLE_FORM = '<SPECIFYTABLE> "Region""Branch"|"Turnover"'


def table(scan: Scanner) -> Table:
    """The variables and the response of SPECIFYTABLE."""
    variables: List[bytes] = []
    while not scan.takes(b"|"):
        start = scan.at
        if scan.is_done() and variables:
            raise Wrong(start, start, "The bar and the response are missing: %s." % TABLE_FORM)
        if scan.peek() in (b",", b";") and variables:
            raise scan.wrong("Variables stand side by side, without commas: %s." % TABLE_FORM)
        if variables and scan.peek() == b"/":
            raise scan.wrong("A bar | comes before the response: %s." % TABLE_FORM)
        variable = scan.quoted("a variable", TABLE_FORM)
        if variable in variables:
            raise Wrong(start, start + len(variable) + 2,
                        "A table can't be spanned by one variable twice.")
        variables.append(variable)
        if len(variables) == 7:
            raise Wrong(start, start + len(variable) + 2,
                        "This is the seventh variable; a table has one to six.")
    if not variables:
        raise scan.wrong("Before the bar the variables of the table are missing: %s." % TABLE_FORM,
                         max(scan.at - 1, 0))
    response = scan.quoted("the response", TABLE_FORM)
    part = 0
    while scan.takes(b"|"):
        part += 1
        start = scan.at
        if scan.peek() == b'"':
            said = scan.quoted("a part", TABLE_FORM)
            if said and not (part == 1 and said == response):
                raise Wrong(
                    start, start + len(said) + 2,
                    "argus has no shadow and no cost variable: after the response a bar may "
                    "have nothing, "
                    '"" or, the first of them, the response again.')
    scan.ends("After the response nothing may follow but bars.")
    return Table(variables, response)


class Rule(NamedTuple):
    """A rule of the line SAFETYRULE, or MAN or WGT, with its numbers."""

    word: str
    numbers: List[int]


def rule_word(scan: Scanner) -> Tuple[str, int]:
    """The name of a rule, and where it begins."""
    start = scan.at
    word = scan.run(lambda it: chr(it).isalpha() and it < 128).decode().upper()
    if word in RULES:
        return word, start
    if not word:
        raise scan.wrong("A rule is missing here; rules are joined by |, as FREQ(3,30)|P(10).",
                         start)
    if word in ("MIS", "REQ", "HOLD"):
        raise Wrong(
            start, start + len(word),
            "%s is a rule of tau-ARGUS that argus doesn't have; it has %s." %
            (word, ", ".join(RULES)))
    like = nearest(word, RULES)
    raise Wrong(
        start, start + len(word), "There is no rule of this name%s. The rules are %s." %
        (", is it %s?" % like if like else "", ", ".join(RULES)))


def numbers_of(scan: Scanner, form: str, ranges: List[Tuple[str, int, int]]) -> List[int]:
    """The numbers between parentheses."""
    full = form_of(form, ranges)
    scan.needs(b"(", "An opening parenthesis is wanted here: %s." % full)
    found: List[int] = []
    for k, (name, low, high) in enumerate(ranges):
        if scan.peek() == b")" or scan.is_done():
            missing = "Its number is missing" if len(
                ranges) == 1 else "It has %s; two are wanted" % (
                    "one number" if k == 1 else "no number")
            raise scan.wrong("%s. %s." % (missing, full))
        found.append(scan.number(name, low, high))
        if k + 1 < len(ranges) and scan.peek() != b")":
            scan.needs(b",", "A comma is wanted between the two numbers: %s." % full)
    if form == "P(p)" and scan.takes(b","):
        start = scan.at
        digits = scan.run(lambda it: 48 <= it <= 57)
        if not digits or int(digits[:9]) != 1 or len(digits) > 9:
            raise scan.wrong(
                "P(p,n) is there for n = 1 alone: argus has no rule for intruders who work "
                "together.", start)
    if scan.peek() == b",":
        raise scan.wrong(
            "%s. %s." %
            ("It takes no number" if not ranges else
             "It takes one number" if len(ranges) == 1 else "It takes two numbers", full))
    scan.needs(b")", "A closing parenthesis is wanted here: %s." % full)
    return found


def rules(scan: Scanner) -> List[Rule]:
    """The rules of SAFETYRULE."""
    found: List[Rule] = []
    while True:
        word, start = rule_word(scan)
        numbers = numbers_of(scan, *RANGES[word])
        if word in ("FREQ", "ZERO", "MAN", "WGT") and any(it.word == word for it in found):
            raise Wrong(start, start + len(word), "%s stands twice; it may stand once." % word)
        found.append(Rule(word, numbers))
        if len([it for it in found if it.word not in ("MAN", "WGT")]) == 9:
            raise Wrong(
                start, start + len(word),
                "This is the ninth rule; a job has one to eight of FREQ, NK, P, PQ and ZERO.")
        if scan.is_done():
            break
        if scan.peek() in (b",", b";", b"&", b"+"):
            raise scan.wrong("Rules are joined by |, as FREQ(3,30)|P(10).")
        scan.needs(b"|", "After a rule comes | and the next rule, or the end of the line.")
    if not any(it.word not in ("MAN", "WGT") for it in found):
        raise Wrong(
            scan.at, scan.at,
            "A rule that makes cells sensitive is missing: at least one of FREQ, NK, P, PQ and "
            "ZERO.")
    return found


class Prior(NamedTuple):
    """What a line APRIORI says."""

    file: bytes
    table: int
    separator: bytes


PRIOR_FORM = '<APRIORI> "cells.hst",1,","'


def prior(scan: Scanner) -> Prior:
    """The argument of APRIORI."""
    name = scan.file("the name of the a priori file", PRIOR_FORM)
    scan.needs(b",",
               "A comma and the number of the table are wanted after the name: %s." % PRIOR_FORM)
    number = table_number(scan, PRIOR_FORM)
    scan.needs(
        b",", "A comma and the byte between the fields of the file, in double quotes, are wanted "
        "here: %s." % PRIOR_FORM)
    start = scan.at
    separator = scan.line[start + 1:start +
                          2] if scan.line[start:start + 3] == b'"""' else scan.quoted(
                              "the byte between the fields of the file", PRIOR_FORM)
    if len(separator) != 1 or separator in b'0123456789." \t\r':
        end = start + len(separator) + 2
        raise Wrong(
            start, end,
            "One byte is wanted between the quotes, and no digit, point, double quote, blank "
            "or CR: %s." % PRIOR_FORM)
    scan.ends("Nothing may follow the byte between the fields.")
    return Prior(name, number, separator)


def table_number(scan: Scanner, form: str) -> int:
    """The number of a table."""
    start = scan.at
    digits = scan.run(lambda it: 48 <= it <= 57)
    if not digits:
        raise scan.wrong(
            "The number of a table is wanted here, from 1 in the order of the SPECIFYTABLE "
            "lines: %s." % form, start)
    return int(digits) if len(digits) < 20 else 10**20


def cost(scan: Scanner) -> str:
    """The argument of COST."""
    start = scan.at
    word = scan.run(lambda it: it not in BLANKS).decode("latin-1").upper()
    if word not in ("VALUE", "FREQ", "UNIT"):
        raise Wrong(
            start, start + len(word),
            "VALUE, FREQ or UNIT may stand here: hiding a cell costs by its value, by its "
            "records, or the same for each.")
    scan.ends("Nothing may follow %s." % word)
    return word


def count(scan: Scanner) -> int:
    """The argument of STEPS and NODES."""
    number = scan.number("This number", 1, 10**12)
    scan.ends("Nothing may follow the number.")
    return number


class Method(NamedTuple):
    """What a line SUPPRESS says: GH and its passes, MOD, or RND and its base."""

    word: str
    number: int


def method(scan: Scanner) -> Method:
    """The argument of SUPPRESS."""
    start = scan.at
    word = scan.run(lambda it: chr(it).isalpha() and it < 128).decode().upper()
    if word not in METHODS:
        also = " %s is a method of tau-ARGUS that argus doesn't have." % word if word in (
            "OPT", "NET", "CTA") else ""
        raise Wrong(
            start, start + max(len(word), 1),
            "GH(n), MOD() or RND(b) may stand here: hypercubes in n passes, 1 to 8; in one "
            "pass; or rounding "
            "to multiples of b, 1 to 10^9.%s" % also)
    behind = re.match(rb"[ \t]*\([ \t]*[0-9][0-9, \t]*\)?", scan.line[scan.at:])
    if word == "MOD" and behind:
        raise Wrong(
            scan.at, scan.at + behind.end(),
            "MOD() has no numbers here. Those of tau-ARGUS are the table, the time, and its "
            "options for singletons, in whose place argus has a line of its own, <CONTRIBUTORS> "
            "\"FILE\" (the manual, Singletons).")
    numbers = numbers_of(scan, *METHODS[word])
    scan.ends("Nothing may follow the method: it is that of all tables.")
    return Method(word, numbers[0] if numbers else 1)


class Output(NamedTuple):
    """What a line WRITETABLE says."""

    table: int
    file: bytes


OUTPUT_FORM = '<WRITETABLE> (1,"table.csv")'


def output(scan: Scanner) -> Output:
    """The argument of WRITETABLE."""
    scan.needs(b"(", "An opening parenthesis is wanted here: %s." % OUTPUT_FORM)
    number = table_number(scan, OUTPUT_FORM)
    scan.needs(
        b",", "A comma is wanted between the number of the table and the name of its file: %s." %
        OUTPUT_FORM)
    if is_number(scan.peek()):
        raise scan.wrong(
            "argus has one form of output, without a kind and without options: %s." % OUTPUT_FORM,
            scan.at, len(scan.line.rstrip(BLANKS)))
    name = scan.file("the name of the table's file", OUTPUT_FORM)
    scan.needs(b")", "A closing parenthesis is wanted here: %s." % OUTPUT_FORM)
    scan.ends("Nothing may follow the parenthesis.")
    return Output(number, name)


class Depth(NamedTuple):
    """What a line DEPTH says: the table, a variable that it spans, and the last level of its codes
    that the table shows."""

    table: int
    variable: bytes
    level: int


DEPTH_FORM = '<DEPTH> (2,"Region",1)'
# No tree is deeper.
MOST_LEVEL = 9


def depth(scan: Scanner) -> Depth:
    """The argument of DEPTH."""
    scan.needs(b"(", "An opening parenthesis is wanted here: %s." % DEPTH_FORM)
    number = table_number(scan, DEPTH_FORM)
    scan.needs(
        b",",
        "A comma is wanted between the number of the table and the variable: %s." % DEPTH_FORM)
    variable = scan.quoted("a variable of the table", DEPTH_FORM)
    scan.needs(
        b",", "A comma and the last level that the table shows are wanted after the variable: %s." %
        DEPTH_FORM)
    level = scan.number("The last level that the table shows", 1, MOST_LEVEL)
    if scan.peek() == b",":
        raise scan.wrong(
            "After the level comes the closing parenthesis: %s. Each variable has a line of "
            "its own." % DEPTH_FORM)
    scan.needs(b")", "A closing parenthesis is wanted here: %s." % DEPTH_FORM)
    scan.ends("Nothing may follow the parenthesis.")
    return Depth(number, variable, level)


# For each command its form as an example, and its reader.
COMMANDS: Dict[str, Tuple[str, Callable[[Scanner], object]]] = {
    "OPENMICRODATA":
    ('<OPENMICRODATA> "firms.asc"',
     lambda it: file_alone(it, "the name of the microdata", '<OPENMICRODATA> "firms.asc"')),
    "OPENMETADATA":
    ('<OPENMETADATA> "firms.rda"',
     lambda it: file_alone(it, "the name of the metadata", '<OPENMETADATA> "firms.rda"')),
    "SPECIFYTABLE": (TABLE_FORM, table),
    "SAFETYRULE": ("<SAFETYRULE> FREQ(3,30)|P(10)", rules),
    "READMICRODATA": ("<READMICRODATA>", nothing),
    "APRIORI": (PRIOR_FORM, prior),
    "COST": ("<COST> VALUE", cost),
    "STEPS": ("<STEPS> 100000", count),
    "NODES": ("<NODES> 1000000", count),
    "SUPPRESS": ("<SUPPRESS> MOD()", method),
    "WRITETABLE": (OUTPUT_FORM, output),
    "CERTIFICATE":
    ('<CERTIFICATE> "table.cert"',
     lambda it: file_alone(it, "the name of the certificate", '<CERTIFICATE> "table.cert"')),
    "CONTRIBUTORS":
    ('<CONTRIBUTORS> "firms.extra"',
     lambda it: file_alone(it, "the name of the file", '<CONTRIBUTORS> "firms.extra"')),
    "DEPTH": (DEPTH_FORM, depth),
}
