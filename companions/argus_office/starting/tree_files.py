"""Hierarchy files: each code with leads in front, one for each level above it, behind those that it
lies below.
"""

import os
from typing import Dict, List, Optional, Tuple

from argus_office.reading.files import Unread, content, lines_of
from argus_office.reading.trees import rows_in
from argus_office.starting.refusals import Refusal, shown

# A tree has at most so many levels below its total.
MOST_LEVELS = 9


def tree_text(parents: Dict[str, str], lead: str) -> str:
    """A hierarchy file: each code before those below it, in ascending order of bytes.

    The total, "", isn't written.
    """
    below: Dict[str, List[str]] = {}
    for code in sorted(parents):
        below.setdefault(parents[code], []).append(code)
    lines: List[str] = []
    left = [(code, 0) for code in reversed(below.get("", []))]
    while left:
        code, depth = left.pop()
        lines.append(lead * depth + code + "\n")
        left += [(it, depth + 1) for it in reversed(below.get(code, []))]
    return "".join(lines)


def read_text(path: str) -> str:
    """A hierarchy file, each byte as a letter of Latin-1."""
    try:
        return content(os.fsencode(path), None).decode("latin-1")
    except Unread as fault:
        raise Refusal(
            fault.system, "Correct the name of the file", shown(path, 80)
        ) from fault


def read_tree(text: str, lead: str, total: str, name: str) -> Dict[str, str]:
    """The parent of each code of a hierarchy file ("" for the total), with the faults that argus
    finds in one.
    """
    parents: Dict[str, str] = {}
    above: List[str] = [""]
    rows = rows_in(lines_of(text.encode("latin-1")), lead.encode("latin-1"))
    for number, depth, raw in rows:
        code = raw.decode("latin-1")
        fault = fault_of(code, depth, above, total, parents)
        if fault:
            raise Refusal(
                "%s: %s" % (shown(code) or "no code", fault[0]), fault[1], shown(name), number
            )
        parents[code] = above[depth]
        above[depth + 1:] = [code]
    return parents


def fault_of(
    code: str, depth: int, above: List[str], total: str, parents: Dict[str, str]
) -> Optional[Tuple[str, str]]:
    """What is wrong with a line of a hierarchy file, and what to do."""
    if not code:
        return "the line has a lead and no code", "Write the code, or delete the line"
    if depth >= MOST_LEVELS:
        return "it is deeper than nine levels", "Merge levels"
    if depth > len(above) - 1:
        do = "Write the line of the level between, or delete leads"
        return "it is more than one level deeper than the line before", do
    if code == total:
        do = "Delete the line, or call the total otherwise (--total)"
        return "it is the code of the total, which has no line", do
    if code in parents:
        return "a line above has the same code", "Give one of them another code"
    return None
