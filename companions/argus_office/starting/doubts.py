"""What start took as it is, and what may not be meant: levels that don't fit the codes, and codes
that a code list lacks.
"""

from itertools import accumulate
from typing import List, Sequence

from argus_office.starting.making import Making
from argus_office.starting.refusals import counted
from argus_office.starting.trees import Variable

# How many codes a doubt names.
FEW = 5


def doubts_of(making: Making) -> List[str]:
    """A line for each doubt."""
    lines: List[str] = []
    for variable, tree in zip(making.variables, making.trees):
        if tree.levels:
            lines += level_doubts(variable, tree.levels)
        lines += order_doubts(variable)
    return lines


def named(variable: Variable, codes: Sequence[str]) -> str:
    """Some codes, the first few by name."""
    text = ", ".join(variable.letters(it) for it in codes[:FEW])
    return text + (", .." if len(codes) > FEW else "")


def listed(numbers: Sequence[int]) -> str:
    """Numbers in words: `2, 4 and 6`."""
    *front, last = map(str, numbers)
    return ", ".join(front) + " and " + last if front else last


def level_doubts(variable: Variable, widths: Sequence[int]) -> List[str]:
    """Codes that end inside a level, so that none is above them there, and levels that no code has.
    """
    codes = sorted(it for it in variable.counts if it not in variable.missing and it)
    ends = list(accumulate(widths))
    longest = max(map(len, codes), default=0)
    inside = [it for it in codes if len(it) not in ends]
    if not codes or not (inside or ends[-1] > longest):
        return []
    said = "--levels %s=%s" % (variable.shown, ",".join(map(str, widths)))
    if inside:
        text = "Doubt: the levels of %s end behind %s bytes, and %s between these: %s." % (
            said, listed(ends), counted(len(inside), "code ends", "codes end"),
            named(variable, inside)
        )
    else:
        text = "Doubt: no code has more than %d bytes, and %s has %d." % (longest, said, ends[-1])
    kept = sorted({*map(len, codes), *(it for it in ends if it < longest)})
    better = ",".join(str(end - begin) for begin, end in zip([0, *kept], kept))
    return ["%s Is %s meant? If no code should be shorter, correct the codes." % (text, better)]


def order_doubts(variable: Variable) -> List[str]:
    """Codes of records that the code list lacks, and codes of it that no record has."""
    lines = []
    if variable.unlisted:
        lines.append("Doubt: the code list of %s lacks %s after it: %s." % (
            variable.shown,
            counted(len(variable.unlisted), "code, which comes", "codes, which come"),
            named(variable, variable.unlisted)
        ))
    if variable.unused:
        lines.append("Doubt: %s of the code list of %s in no record, and will show 0: %s." % (
            counted(len(variable.unused), "code"),
            variable.shown + (" is" if len(variable.unused) == 1 else " are"),
            named(variable, variable.unused)
        ))
    return lines
