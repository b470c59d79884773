"""The job file: which files, tables, rules and method (manual: The job; Rules in a job)."""
import re
from typing import Dict, List, NamedTuple, Optional, Set, Tuple

from argus_outside.texts import BLANKS, Unreadable, lines, whole, whole_in

NAME = rb'"([\x20\x21\x23-\x7e]{1,255})"'
DIGITS = rb"([0-9]+)"
LEVELS = 9  # the deepest level below the total
Key = Tuple[str, int, bytes]
NEEDED = ("OPENMICRODATA", "OPENMETADATA", "SPECIFYTABLE", "SAFETYRULE", "SUPPRESS", "WRITETABLE",
          "CERTIFICATE")


def _form(*tokens: bytes) -> "re.Pattern[bytes]":
    """A form of an argument: its tokens, with blanks between them as one likes."""
    return re.compile(rb"[ \t]*".join(tokens), re.S | re.I)


FORMS: Dict[bytes, "re.Pattern[bytes]"] = {
    b"OPENMICRODATA":
    _form(NAME),
    b"OPENMETADATA":
    _form(NAME),
    b"CERTIFICATE":
    _form(NAME),
    b"CONTRIBUTORS":
    _form(NAME),
    b"SPECIFYTABLE":
    _form(rb'((?:"[^"]*"[ \t]*){1,6})\|', rb'("[^"]*")', rb'((?:\|[ \t]*(?:"[^"]*"[ \t]*)?)*)'),
    b"DEPTH":
    _form(rb"\(", DIGITS, b",", rb'"([^"]*)"', b",", DIGITS, rb"\)"),
    b"SAFETYRULE":
    _form(rb"(.+)"),
    b"READMICRODATA":
    _form(rb"()"),
    b"APRIORI":
    _form(NAME, b",", DIGITS, b",", rb'"([^0-9." \t\r])"'),
    b"COST":
    _form(rb"(VALUE|FREQ|UNIT)"),
    b"STEPS":
    _form(DIGITS),
    b"NODES":
    _form(DIGITS),
    b"SUPPRESS":
    _form(rb"(GH|MOD|RND)", rb"\(", rb"(?:([0-9]+)[ \t]*)?\)"),
    b"WRITETABLE":
    _form(rb"\(", DIGITS, b",", NAME, rb"\)"),
}
RULE = _form(rb"(FREQ|NK|PQ|P|ZERO|MAN|WGT)", rb"\(", DIGITS, rb"(?:,[ \t]*([0-9]+)[ \t]*)?\)")
RANGES: Dict[str, Tuple[Tuple[int, int], ...]] = {
    "FREQ": ((1, 10**6), (0, 1000)),
    "NK": ((1, 10), (1, 100)),
    "P": ((1, 1000), ),
    "PQ": ((1, 1000), (1, 1000)),
    "ZERO": ((1, 10**9), ),
    "MAN": ((0, 1000), ),
    "WGT": ((0, 1), )
}


class Table(NamedTuple):
    """A table of the job: the line that specifies it, its spanning variables in order, and the
    response.
    """
    line: int
    variables: List[bytes]
    response: bytes


class Prior(NamedTuple):
    """An a priori file of the job: line, name, number of the table from 1, and the byte between
    fields.
    """
    line: int
    file: bytes
    table: int
    separator: bytes


class Depth(NamedTuple):
    """How deep a table takes a variable's tree: line, number of the table from 1, the variable as
    written, and the level.
    """
    line: int
    table: int
    variable: bytes
    level: int


class Job:
    """A job that has no fault by itself.

    Output files stand by table; a rule is its word and its numbers.
    """
    def __init__(self) -> None:
        self.tables: List[Table] = []
        self.depths: List[Depth] = []
        self.rules: List[Tuple[str, Tuple[int, ...]]] = []
        self.manual, self.weighted = 20, False
        self.priors: List[Prior] = []
        self.cost = b"VALUE"
        self.method: Tuple[str, int] = ("MOD", 1)
        self.files: Dict[str, Tuple[int,
                                    bytes]] = {}  # by command: the line and the name of the file
        self.outputs: Dict[int,
                           Tuple[int,
                                 bytes]] = {}  # by table from 1: the line and the name of the file
        self.lines_of: Dict[str, int] = {}

    def written(self) -> List[Tuple[int, bytes]]:
        """All files that the job writes, with their lines."""
        own = [self.files[word] for word in ("CERTIFICATE", "CONTRIBUTORS") if word in self.files]
        return list(self.outputs.values()) + own


def fault(line: int, kind: str, words: str) -> Unreadable:
    """A fault of the job; line 0 is the job as a whole."""
    return Unreadable("job", line, kind, words)


def _rules(job: Job, argument: bytes) -> bool:
    """Reads the rules of a SAFETYRULE line; False where one isn't a rule, is out of range, or is
    one too many.
    """
    once: Set[str] = set()
    for part in argument.split(b"|"):
        match = RULE.fullmatch(part.strip(BLANKS))
        if not match:
            return False
        word = match.group(1).upper().decode()
        said = [whole(group) for group in match.groups()[1:] if group is not None]
        numbers = [number for number in said if number is not None]
        if len(numbers) != len(said):
            return False
        if word == "P" and len(numbers) == 2:
            if numbers.pop() != 1:
                return False
        ranges = RANGES[word]
        if len(numbers) != len(ranges):
            return False
        if not all(low <= n <= high for n, (low, high) in zip(numbers, ranges)):
            return False
        if word in once:
            return False
        if word in ("FREQ", "ZERO", "MAN", "WGT"):
            once.add(word)
        if word == "MAN":
            job.manual = numbers[0]
        elif word == "WGT":
            job.weighted = numbers[0] == 1
        else:
            job.rules.append((word, tuple(numbers)))
    return 1 <= len(job.rules) <= 8


def _table(number: int, match: "re.Match[bytes]") -> Optional[Table]:
    """A SPECIFYTABLE line; None where a variable stands twice or a part behind the response isn't
    allowed.
    """
    variables = re.findall(rb'"([^"]*)"', match.group(1))
    parts = re.findall(rb'\|[ \t]*("[^"]*")?', match.group(3))
    fine = all(part in (b"", b'""') or k == 0 and part == match.group(2)
               for k, part in enumerate(parts))
    if not fine or len(set(variables)) < len(variables):
        return None
    return Table(number, variables, match.group(2)[1:-1])


def _method(match: "re.Match[bytes]") -> Optional[Tuple[str, int]]:
    """The method of a SUPPRESS line and its number: passes of GH (MOD is one pass), base of RND."""
    word = match.group(1).upper().decode()
    if word == "MOD":
        return ("MOD", 1) if match.group(2) is None else None
    number = whole_in(match.group(2) or b"", 1, 8 if word == "GH" else 10**9)
    return None if number is None else (word, number)


def _add_table(job: Job, number: int, match: "re.Match[bytes]") -> None:
    """Puts a SPECIFYTABLE line into the job, with its faults."""
    table = _table(number, match)
    if table is None:
        raise _bad(number)
    if len(job.tables) == 8 or len({v for t in job.tables + [table] for v in t.variables}) > 8:
        raise fault(number, "TooMany", "a ninth table, or more than 8 spanning variables in all")
    if job.tables and job.tables[0].response != table.response:
        raise fault(number, "OtherResponse", "the response isn't that of the first table")
    job.tables.append(table)


def _bad(number: int) -> Unreadable:
    """A line's argument that isn't good."""
    return fault(number, "BadValue",
                 "what follows the command isn't as it should be, or is out of range")


def _take(job: Job, number: int, word: str, match: "re.Match[bytes]") -> bool:
    """Puts one line's argument into the job; False where the value isn't good."""
    if word == "SAFETYRULE":
        job.rules = []
        return _rules(job, match.group(1))
    if word in ("STEPS", "NODES"):
        return whole_in(match.group(1), 1, 10**12) is not None
    if word == "SUPPRESS":
        method = _method(match)
        job.method = method or job.method
        return method is not None
    if word == "DEPTH":
        level = whole_in(match.group(3), 1, LEVELS)
        job.depths.append(Depth(number, whole(match.group(1)) or 0, match.group(2), level or 0))
        return level is not None
    if word == "COST":
        job.cost = match.group(1).upper()
    elif word not in ("READMICRODATA", "APRIORI", "WRITETABLE"):
        job.files[word] = (number, match.group(1))
    return True


def _key(word: str, match: "re.Match[bytes]") -> Key:
    """What may stand once: the command, and where it names a table that table's number, and the
    variable of a depth.
    """
    if word == "DEPTH":
        return word, whole(match.group(1)) or 0, match.group(2)
    table = {"APRIORI": 2, "WRITETABLE": 1}.get(word)
    return word, (whole(match.group(table)) or 0) if table else 0, b""


def _line(job: Job, number: int, text: bytes, seen: Set[Key]) -> None:
    """One line of the job, with its faults in their order."""
    close = text.find(b">")
    if not text.startswith(b"<") or close < 2:
        raise fault(number, "BadLine", "the line doesn't begin with a command in < and >")
    command, argument = text[1:close].upper(), text[close + 1:].strip(BLANKS)
    if command not in FORMS:
        raise fault(number, "UnknownCommand", "there is no such command")
    word, match = command.decode(), FORMS[command].fullmatch(argument)
    if not match:
        raise _bad(number)
    if word == "SPECIFYTABLE":
        _add_table(job, number, match)
        return
    if not _take(job, number, word, match):
        raise _bad(number)
    key = _key(word, match)
    if key in seen:
        raise fault(
            number, "Twice",
            "an earlier line has the same command, and the same table and variable where it "
            "names them"
        )
    seen.add(key)
    job.lines_of[word] = number
    if word == "APRIORI":
        job.priors.append(Prior(number, match.group(1), key[1], match.group(3)))
    elif word == "WRITETABLE":
        job.outputs[key[1]] = (number, match.group(2))


def read_job(data: bytes) -> Job:
    """The job of these bytes, or its first fault."""
    job = Job()
    seen: Set[Key] = set()
    for number, line in enumerate(lines(data), 1):
        text = line.strip(BLANKS)
        if text and not text.startswith(b"//"):
            _line(job, number, text, seen)
    if "CONTRIBUTORS" in job.files and "SUPPRESS" in job.lines_of and job.method[0] == "RND":
        raise fault(job.files["CONTRIBUTORS"][0], "BadValue",
                    "a job that rounds has no contributors' file")
    _tables_named(job)
    _files_named(job)
    there = set(job.lines_of) | ({"SPECIFYTABLE"} if job.tables else set())
    if len(job.outputs) < len(job.tables):
        there.discard("WRITETABLE")
    for word in NEEDED:
        if word not in there:
            raise fault(0, "Missing " + word, "the job has no such command, or not for each table")
    return job


def _tables_named(job: Job) -> None:
    """Every line that names a table by its number names one of the job, and every depth a variable
    of its table.
    """
    numbered = [(prior.line, prior.table) for prior in job.priors] + [(depth.line, depth.table)
                                                                      for depth in job.depths]
    numbered += [(line, table) for table, (line, _) in job.outputs.items()]
    for line, table in sorted(numbered):
        if not 1 <= table <= len(job.tables):
            raise fault(line, "NoSuchTable", "the job has no table of this number")
    for depth in job.depths:
        if depth.variable not in job.tables[depth.table - 1].variables:
            raise fault(depth.line, "NotInTable", "the table isn't spanned by the variable")


def _files_named(job: Job) -> None:
    """No line writes a file that the job reads, or that another line writes."""
    inputs = [job.files[word][1] for word in ("OPENMICRODATA", "OPENMETADATA") if word in job.files]
    inputs += [prior.file for prior in job.priors]
    names = [name for _, name in job.written()]
    for line, name in sorted(job.written()):
        if name in inputs or names.count(name) > 1:
            raise fault(
                line, "SameName",
                "the line writes a file that another line writes too, or that the job reads")
