"""The job: each command with a line of comment that says what it does, in the words of
docs/MANUAL.md.
"""

import re
from typing import Dict, List, NamedTuple, Optional, Sequence, Tuple

from argus_office.starting.refusals import Refusal, shown

EXAMPLE_RULES = "P(10)|FREQ(3,30)"
COUNT_RULES = "FREQ(3,30)"
MILLION, BILLION, TRILLION = 10**6, 10**9, 10**12
# The numbers of each rule, from the least to the greatest.
RULES: Dict[str, Sequence[Tuple[int, int]]] = {
    "FREQ": ((1, MILLION), (0, 1000)),
    "NK": ((1, 10), (1, 100)),
    "P": ((1, 1000),),
    "PQ": ((1, 1000), (1, 1000)),
    "ZERO": ((1, BILLION),),
    "MAN": ((0, 1000),),
    "WGT": ((0, 1),),
}
# What the numbers of each rule mean; the ranges are filled in.
MEANINGS = {
    "FREQ": "FREQ(n,r): cells of fewer than n records, %s, with levels of r percent, %s",
    "NK": "NK(n,k): the n largest, %s, have more than k percent of the cell, %s",
    "P": "P(p): the second largest can estimate the largest to within p percent, %s",
    "PQ": "PQ(p,q): the same as P(p), p %s, if all know each other to within q percent, %s",
    "ZERO": "ZERO(r): cells with records and the value 0, with levels of r units, %s",
    "MAN": "MAN(r): the levels of cells that a u line makes sensitive, in percent, %s",
    "WGT": "WGT(w): whether weights count, %s",
}
NAMING = ("FREQ", "NK", "P", "PQ", "ZERO")
ONCE = ("FREQ", "ZERO", "MAN", "WGT")
METHODS: Dict[str, Sequence[Tuple[int, int]]] = {"GH": ((1, 8),), "MOD": (), "RND": ((1, BILLION),)}


class Plan(NamedTuple):
    """What a job says, with the names of its files."""

    csv: str
    microdata: str
    metadata: str
    tables: Sequence[Sequence[str]]
    response: str
    rules: str
    is_example: bool
    priors: Sequence["Prior"]
    cost: str
    steps: str
    nodes: str
    method: str
    outputs: Sequence[str]
    certificate: str
    contributors: str
    is_guarded: bool
    # For a table, from 1, and a variable of it the last level that the table shows, where it
    # doesn't show all.
    depths: Sequence[Tuple[int, str, int]] = ()
    is_count: bool = False


class Prior(NamedTuple):
    """An a priori file: its table, its name, and the byte between its fields."""

    table: int
    file: str
    separator: str = ","


def called(text: str) -> Optional[Tuple[str, List[int]]]:
    """A word with whole numbers in brackets, as `FREQ(3,30)`."""
    bare = re.sub(r"[ \t]", "", text).upper()
    found = re.fullmatch(r"([A-Z]+)\(((?:\d{1,20}(?:,\d{1,20})*)?)\)", bare, re.ASCII)
    return (found[1], [int(it) for it in found[2].split(",") if it]) if found else None


def fits(numbers: Sequence[int], ranges: Sequence[Tuple[int, int]]) -> bool:
    """Whether there are as many numbers as ranges, and each is in its own."""
    return len(numbers) == len(ranges) and all(
        low <= it <= high for it, (low, high) in zip(numbers, ranges)
    )


def check_rules(text: str, is_weighted: bool) -> str:
    """The rules as the job has them; with a weight, WGT(1) is among them."""
    words: List[str] = []
    for part in text.split("|"):
        name, numbers = rule_of(part)
        if name in ONCE and name in words:
            raise Refusal("--rule has %s twice" % name, "Give it once")
        words.append(name)
        if name == "WGT" and (numbers == [1]) != is_weighted:
            raise Refusal(
                "WGT(%d) and %s --weight" % (numbers[0], "a" if is_weighted else "no"),
                "With a weight the rule is WGT(1), which start adds by itself"
            )
    if not 1 <= len([it for it in words if it in NAMING]) <= 8:
        raise Refusal(
            "--rule needs one to eight of FREQ, NK, P, PQ and ZERO",
            "Give the office's rule, as --rule 'NK(2,85)'"
        )
    return text + ("|WGT(1)" if is_weighted and "WGT" not in words else "")


def rule_of(text: str) -> Tuple[str, List[int]]:
    """The name and the numbers of a rule; what is none of argus's rules is refused."""
    name, numbers = called(text) or ("", [])
    if name == "P" and len(numbers) == 2 and numbers[1] == 1:
        numbers = numbers[:1]
    if name not in RULES or not fits(numbers, RULES[name]):
        raise Refusal("--rule %s isn't a rule of argus" % shown(text), advice_on(text, numbers))
    return name, numbers


def advice_on(text: str, numbers: Sequence[int]) -> str:
    """What to do about a rule that is none: what its numbers are, where its name is known."""
    name = text.partition("(")[0].strip(" \t").upper()
    if name not in RULES:
        return (
            "Rules are FREQ(n,r), NK(n,k), P(p), PQ(p,q), ZERO(r), MAN(r) and WGT(1), joined by |, "
            "with the numbers that the manual has"
        )
    ranges = tuple("from {:,} to {:,}".format(low, high) for low, high in RULES[name])
    advice = "All numbers are whole. " + MEANINGS[name] % ranges
    turned = list(reversed(numbers))
    if len(turned) == 2 and fits(turned, RULES[name]):
        advice += ". Is %s(%d,%d) meant?" % (name, turned[0], turned[1])
    return advice


def check_method(text: str, is_guarded: bool) -> str:
    """The method as the job has it."""
    method = called(text)
    if not method or method[0] not in METHODS or not fits(method[1], METHODS[method[0]]):
        raise Refusal(
            "--method %s isn't a method of argus" % shown(text),
            "Methods are GH(n) with n from 1 to 8, MOD() and RND(b) with b from 1 to 1,000,000,000"
        )
    if method[0] == "RND" and is_guarded:
        raise Refusal(
            "--contributors and a method that rounds",
            "Take GH(n) or MOD(), or leave --contributors out"
        )
    return text


def job_text(plan: Plan) -> str:
    """The job. Its comments say what each command does."""
    lines = [
        "// Made by start from %s. Any line may be edited: docs/MANUAL.md has every command in "
        '"Commands of a job".' % plan.csv
    ]
    lines += piece(
        "The microdata: a record a line, in fields of fixed width.",
        '<OPENMICRODATA> "%s"' % plan.microdata
    )
    lines += piece(
        "The metadata: where each field is, and what its bytes mean.",
        '<OPENMETADATA> "%s"' % plan.metadata
    )
    lines += table_lines(plan) + rule_lines(plan) + prior_lines(plan) + search_lines(plan)
    lines += output_lines(plan) + contributor_lines(plan) + depth_lines(plan)
    return "".join(it + "\n" for it in lines)


def piece(comment: str, command: str) -> List[str]:
    """A command, below an empty line and a comment that says what it does."""
    return ["", "// " + comment, command]


def table_lines(plan: Plan) -> List[str]:
    """A line <SPECIFYTABLE> for each table."""
    lines: List[str] = []
    what = "the variable that is summed" + (" (1 in each record)" if plan.is_count else "")
    for number, names in enumerate(plan.tables, 1):
        lines += piece(
            "Table %d: its variables, and after the bar the response, %s." % (number, what),
            '<SPECIFYTABLE> %s|"%s"' % ("".join('"%s"' % it for it in names), plan.response)
        )
    return lines


def rule_lines(plan: Plan) -> List[str]:
    """The line <SAFETYRULE>; rules that the office didn't give are called examples."""
    lines = [
        "", '// Which cells are sensitive. Numbers and meaning: docs/MANUAL.md, "Rules in a job".'
    ]
    if plan.is_example:
        are = "is an example" if plan.is_count else "are examples"
        lines.append(
            "// %s %s: which rules an office needs is for the office to decide." %
            (COUNT_RULES if plan.is_count else EXAMPLE_RULES, are)
        )
    return [*lines, "<SAFETYRULE> " + plan.rules]


def prior_lines(plan: Plan) -> List[str]:
    """A line <APRIORI> for each a priori file."""
    what = "What the office states of the cells of table %d beforehand"
    if plan.is_count:
        what = "That counts of table %d with records are at least 1, as readers know, and levels"
    lines: List[str] = []
    for it in plan.priors:
        lines += piece(
            what % it.table + "; the byte in quotes separates the fields of the file.",
            '<APRIORI> "%s",%d,"%s"' % (it.file, it.table, it.separator)
        )
    if plan.is_count:
        lines.insert(2, "// start made it of the records and of n in FREQ: after a change of one "
                     "of these call start again.")
    return lines


def search_lines(plan: Plan) -> List[str]:
    """What hiding costs, the limits of searches, and the method."""
    lines = piece(
        "What hiding a cell costs: by its value (VALUE), by its records (FREQ), or the same for "
        "each (UNIT).", "<COST> " + plan.cost
    )
    if plan.steps:
        lines += piece(
            "The most steps of one question: how far can this cell move up, or down?",
            "<STEPS> " + plan.steps
        )
    if plan.nodes:
        lines += piece(
            "The most choices that a search for a rounding looks at.", "<NODES> " + plan.nodes
        )
    return lines + piece(
        "How tables are protected: hypercubes in one pass, MOD(), or in n passes, GH(n); or "
        "rounding to multiples of b, RND(b).", "<SUPPRESS> " + plan.method
    )


def output_lines(plan: Plan) -> List[str]:
    """The files of the tables and of the certificate."""
    lines: List[str] = []
    for number, name in enumerate(plan.outputs, 1):
        lines += piece(
            "The file of table %d, for publication." % number,
            '<WRITETABLE> (%d,"%s")' % (number, name)
        )
    return lines + piece(
        "The file of the certificate. It gives true values away: keep it inside the office.",
        '<CERTIFICATE> "%s"' % plan.certificate
    )


def contributor_lines(plan: Plan) -> List[str]:
    """The line <CONTRIBUTORS>; as a comment where it wasn't asked for, since it is easily
    forgotten. A job that rounds can't have it.
    """
    command = '<CONTRIBUTORS> "%s"' % plan.contributors
    if plan.is_guarded:
        return piece(
            "Firms that stand alone in a cell are kept out too; the file shows it. Keep it inside "
            "the office.", command
        )
    if called(plan.method) and plan.method.strip().upper().startswith("RND"):
        return []
    return piece(
        "If a figure may come from a single firm, take the slashes off: then firms that stand "
        "alone in a cell are kept out too.", "// " + command
    )


def depth_lines(plan: Plan) -> List[str]:
    """A line <DEPTH> for each variable that a table doesn't show with all its levels."""
    lines: List[str] = []
    for number, name, level in plan.depths:
        lines += piece(
            "Table %d has the codes of %s down to level %d alone; level 1 is right below the total."
            % (number, name, level),
            '<DEPTH> (%d,"%s",%d)' % (number, name, level)
        )
    return lines
