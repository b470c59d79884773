"""What start says when the files are in their places: what it read, and what comes next."""

from typing import List, Sequence

from argus_office.starting.amounts import exactly, written
from argus_office.starting.counts import first_safe
from argus_office.starting.depths import depth_line
from argus_office.starting.doubts import doubts_of
from argus_office.starting.durations import duration_lines, kind_of
from argus_office.starting.making import Making
from argus_office.starting.refusals import counted
from argus_office.starting.summary import (
    blanks_dropped, code_line, how_written, left_out, next_commands, number_line, renamed
)


def lines_of(makings: Sequence[Making], files: Sequence[Sequence[str]]) -> List[str]:
    """What start says of the files that it has written, a line each."""
    lines: List[str] = []
    for making, names in zip(makings, files):
        lines += lines_of_job(making, names)
    lines[-1] += " Next:"
    lines[-1:-1] = [line for it in makings for line in duration_lines(it)]
    jobs = [it.stem + ".job" for it in makings]
    kind = kind_of(makings[0])
    is_flat = kind.tables == 1 and kind.variables < 3 and not kind.has_levels
    needs_whole = makings[0].is_count and not makings[0].is_rounded() and not is_flat
    return lines + next_commands(makings[0].out, jobs, needs_whole)


def lines_of_job(making: Making, files: Sequence[str]) -> List[str]:
    """What start says of one job and its files."""
    lines = [*columns_of(making), *left_of(making), *doubts_of(making)]
    own = making.own_files()
    order = ", ".join([*own, *(it for it in files if it not in own)])
    lines.append("Written: %s. Every record was read back and compared with the CSV." % order)
    if "rule" not in making.words.one:
        are, it = ("rule %s is an example", "it") if making.is_count else (
            "rules %s are examples", "them")
        lines.append("The %s. Which ones an office needs is for the office to decide:" %
                     (are % making.rules))
        lines.append("give %s by --rule, or edit <SAFETYRULE> in %s.job." % (it, making.stem))
    kept = sum(making.kept)
    counts = count_of(kept, "record"), len(making.kept) - kept, count_of(making.cells, "cell")
    lines.append("Compare codes and total with what the office knows. argus should find %s, "
                 "%d skipped, %s." % counts)
    return lines


def columns_of(making: Making) -> List[str]:
    """How the CSV was read, and what its columns have."""
    made, source = making.made, making.source
    marks = None if making.is_count else making.marks
    read = counted(len(making.kept), "record"), how_written(source, marks)
    lines = ["%s: %s; %s" % (source.name, *read)]
    for variable, tree in zip(making.variables, making.trees):
        lines.append("  %s: %s" % (made[variable.column], code_line(variable, tree)))
    for number, it in making.cut():
        tree = making.trees[making.spanning.index(it.column)]
        lines.append(depth_line(number, made[it.column], it, tree))
    if making.weight is not None:
        weights = number_line(making.weights, making.weight_decimals)
        lines.append("  %s: %s" % (made[making.weight], weights))
    if making.is_count:
        return lines + counts_lines(making)
    for column, (number, change) in making.changes.items():
        lines.append("  %s: rounded to %s, by which %s changed, together by %s" % (
            made[column], counted(making.rounds[column], "decimal"), counted(number, "number"),
            exactly(change)
        ))
    values = number_line(making.units, making.decimals) + weighted(making)
    return [*lines, "  %s: %s" % (making.response, values)]


def counts_lines(making: Making) -> List[str]:
    """What start says of counts: how many are sensitive, and what it states of them."""
    safe, lines = first_safe(making.rules), []
    for number, counts in enumerate(making.counts, 1):
        few = sum(it.records < safe for it in counts.values())
        lines.append("  %s: table %d has records in %s, of which %s below %d" % (
            making.response, number, counted(len(counts), "cell"),
            counted(few, "has a count", "have counts"), safe
        ))
    return lines


def left_of(making: Making) -> List[str]:
    """What isn't in the files as the CSV has it."""
    source, used = making.source, making.used
    skipped = len(making.kept) - sum(making.kept)
    name = making.response if making.value is None else source.names[making.value]
    lines = left_out(source, making.records, skipped, name, used)
    lines += renamed(source, making.made, used)
    return lines + blanks_dropped(source, making.records, sorted(used))


def weighted(making: Making) -> str:
    """The total as the tables have it, where there is a weight."""
    if making.weight is None:
        return ""
    both = zip(making.units, making.weights)
    total = sum(unit * (weight or 0) for unit, weight in both if unit is not None)
    decimals = making.decimals + making.weight_decimals
    return "; with weights the total is %s" % written(total, decimals)


def count_of(count: int, noun: str) -> str:
    """As argus says it: without marks between thousands, and with `s` in every case."""
    return "%d %ss" % (count, noun)
