"""Counts: what start states of a table of how many records there are, in an a priori file.

A reader knows that a count is whole and that behind each `x` there is a record. So every cell with
records, margins too, gets the bounds from 1, and each sensitive one levels down to the least count
that it can have if all these cells keep a record, and up to the first count that isn't sensitive.

So a job always has a protection, with all its cells hidden if need be: in one table there is one
record for each choice of codes that records have, and in another one a further record of the cell.
"""

from collections import Counter
from itertools import product
from typing import Dict, Iterator, List, NamedTuple, Sequence, Tuple

from argus_office.starting.job import called
from argus_office.starting.refusals import Refusal, shown
from argus_office.starting.trees import Tree, Variable

# No table has so many records: the upper bound says nothing.
NO_LIMIT = 10**12
# What may stand between the fields of an a priori file, by preference.
SEPARATORS = ",;|:#~^!"
# The codes of a cell in the order of the table.
Key = Tuple[str, ...]
# The variables of a table by their numbers, each with the last level that it shows.
Table = Sequence[Tuple[int, int]]


class Filled(NamedTuple):
    """How many records a cell has, and how many choices of codes these have."""

    records: int
    choices: int


def counts_of(
    variables: Sequence[Variable], trees: Sequence[Tree], tables: Sequence[Table]
) -> List[Dict[Key, Filled]]:
    """What each cell of each table has, where it has any.

    A choice of codes is one for each variable, down to the last level that any table shows.
    """
    deepest = [max((dict(it).get(k, 0) for it in tables), default=0) for k in range(len(trees))]
    chains: List[Dict[str, List[str]]] = [
        {code: tree.chain(code)[:last] for code in variable.codes}
        for variable, tree, last in zip(variables, trees, deepest)
    ]
    ends = [{code: it[-1] for code, it in chain.items()} for chain in chains]
    columns = [map(end.__getitem__, it.codes) for end, it in zip(ends, variables)]
    rows = Counter(zip(*columns))
    above = [{it[-1]: it for it in chain.values()} for chain in chains]
    totals = [it.total for it in variables]
    return [filled(rows, above, totals, table) for table in tables]


def filled(
    rows: Dict[Key, int], above: Sequence[Dict[str, List[str]]], totals: Sequence[str], table: Table
) -> Dict[Key, Filled]:
    """What each cell of one table has, by how many records have which codes."""
    found: Dict[Key, Filled] = {}
    for codes, count in rows.items():
        sides = ([totals[k], *above[k][codes[k]][:last]] for k, last in table)
        for key in product(*sides):
            records, choices = found.get(key, (0, 0))
            found[key] = Filled(records + count, choices + 1)
    return found


def first_safe(rules: str) -> int:
    """The least count that no rule makes sensitive."""
    numbers = [(called(it) or ("", [1]))[1] for it in rules.split("|")]
    return max(it[0] for it in numbers)


def check_count_rules(rules: str) -> str:
    """Refuses rules that ask who contributes how much, which a count doesn't say."""
    for rule in rules.split("|"):
        if (called(rule) or ("",))[0] != "FREQ":
            raise Refusal(
                "--rule %s, and --count" % shown(rule),
                "Counts take FREQ(n,r): those from 1 to n - 1 are sensitive"
            )
    return rules


def separator_for(tables: Sequence[Dict[Key, Filled]]) -> str:
    """A byte that no code has."""
    used = {mark for counts in tables for key in counts for code in key for mark in code}
    for mark in SEPARATORS:
        if mark not in used:
            return mark
    raise Refusal(
        "the codes have every mark in them that may stand between the fields of an a priori file",
        "Take one of %s out of the codes" % SEPARATORS
    )


def prior_lines_of(
    counts: Dict[Key, Filled], separator: str, safe: int, is_rounded: bool
) -> Iterator[str]:
    """The lines of an a priori file. A rounded table hides nothing, so nobody learns from it which
    cells have records.
    """
    for key, (records, choices) in sorted(counts.items()):
        if not is_rounded:
            yield separator.join([*key, "b", "1", str(NO_LIMIT)]) + "\n"
        if records < safe:
            levels = str(records - choices), str(safe - records)
            yield separator.join([*key, "pl", *levels]) + "\n"
