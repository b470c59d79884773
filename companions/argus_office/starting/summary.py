"""The lines of what start says: of columns, of what it left out, and what comes next."""

import os
import shlex
from typing import List, Optional, Sequence, Set

from argus_office.programs import CLONE
from argus_office.starting.amounts import Marks, written
from argus_office.starting.csv_file import SEPARATORS, Records, Source
from argus_office.starting.refusals import counted, shown
from argus_office.starting.trees import Tree, Variable

PLAIN_MARKS = {
    ",": "comma", ".": "point", " ": "blank", "'": "apostrophe", "\u2019": "apostrophe",
    "\u00a0": "no-break blank", "\u202f": "narrow blank", "\u2009": "thin blank",
}


def code_line(variable: Variable, tree: Tree) -> str:
    """The codes of a variable: how many, and which have the fewest and the most records."""
    counts = variable.counts
    if not counts:
        return "no codes"
    order = sorted(counts, key=lambda it: (counts[it], it))
    few, many = order[0], max(counts, key=lambda it: (counts[it], it))
    text = counted(len(counts), "code")
    if tree.codes != len(counts):
        text += ", %s with the upper levels" % counted(tree.codes, "code")
    if len(counts) > 1:
        text += "; fewest records %s (%s), most %s (%s)" % (
            variable.letters(few), "{:,}".format(counts[few]), variable.letters(many),
            "{:,}".format(counts[many])
        )
    else:
        text += ": " + variable.letters(few)
    without = sum(counts[it] for it in variable.missing)
    if without:
        words = ", ".join(variable.letters(it).strip("()") for it in variable.missing)
        text += "; no answer in %s (%s)" % (counted(without, "record"), words)
    return text


def number_line(units: Sequence[Optional[int]], decimals: int) -> str:
    """The numbers of a column: the total and the range."""
    there = [it for it in units if it is not None]
    if not there:
        return "no numbers"
    text = "total %s" % written(sum(there), decimals)
    text += ", %s" % counted(decimals, "decimal") if decimals else ", whole numbers"
    return text + "; from %s to %s" % (written(min(there), decimals), written(max(there), decimals))


def left_out(
    source: Source, records: Records, skipped: int, response: str, used: Set[int]
) -> List[str]:
    """What of the CSV isn't in the microdata, or isn't counted."""
    without = "%s without %s, which argus skips" % (counted(skipped, "record"), shown(response))
    parts = [without] if skipped else []
    parts += [counted(records.empty, "empty line")] if records.empty else []
    columns = [
        shown(it) or "(without a name)" for k, it in enumerate(source.names) if k not in used
    ]
    if columns:
        more = " and %d more" % (len(columns) - 8) if len(columns) > 8 else ""
        parts.append(
            "the column%s %s%s" % ("s" if len(columns) > 1 else "", ", ".join(columns[:8]), more)
        )
    return ["Left out: " + "; ".join(parts) + "."] if parts else []


def how_written(source: Source, marks: Optional[Marks]) -> str:
    """How the CSV was read; without marks, none of its columns was read as numbers."""
    text = SEPARATORS.get(source.separator, shown(source.separator)) + " between columns"
    text += ", decimal " + PLAIN_MARKS[marks.decimal] if marks else ""
    if marks and marks.thousands:
        text += ", %s between thousands" % PLAIN_MARKS[marks.thousands]
    return text + (", byte order mark" if source.marked else "")


def renamed(source: Source, made: Sequence[str], used: Set[int]) -> List[str]:
    """Which names of columns are written otherwise."""
    changed = [
        '"%s" is now %s' % (shown(source.names[it]), made[it])
        for it in sorted(used)
        if made[it] != source.names[it]
    ]
    return ["Names that metadata take: " + "; ".join(changed) + "."] if changed else []


def blanks_dropped(source: Source, records: Records, used: Sequence[int]) -> List[str]:
    """In which columns fields had blanks at their ends."""
    names = [shown(source.names[it]) for it in used if records.blanks[it] - {""}]
    return ["Blanks at the ends of fields don't count (%s)." % ", ".join(names)] if names else []


def next_commands(out: str, jobs: Sequence[str], needs_whole: bool) -> List[str]:
    """The calls that come next, from the folder of the job; for counts, where their complete tables
    may have fractions, also which of them are open to whole numbers.
    """
    is_here = os.path.realpath(out) == os.path.realpath(".")
    go = [] if is_here else ["  cd " + shlex.quote(os.path.relpath(out))]
    argus = called_from(out)
    if len(jobs) > 1:
        return [*go, "  %s together %s" % (argus, " ".join(jobs))]
    words = ["run", "whole", "page"] if needs_whole else ["run", "page"]
    return [*go, *("  %s %s %s" % (argus, it, jobs[0]) for it in words)]


def called_from(out: str) -> str:
    """How argus is called from a folder: by its path in a clone, by its name where it is installed.
    """
    if not os.path.exists(os.path.join(CLONE, "built", "launch.sh")):
        return "argus"
    back = os.path.relpath(CLONE, out)
    back = back if len(back) <= len(CLONE) else CLONE
    back = back if os.sep in back or back in (".", "..") else os.path.join(".", back)
    return shlex.quote(os.path.join(back, "argus"))
