#!/usr/bin/env python3
"""Lists the definitions to which no contract comes, and which only proofs can need: they belong beside these.

usage: bench/docs/uncited.py

A contract comes to what its source file names, and to what the definitions that it comes to name. A line for each that is left.
"""

from __future__ import annotations

import pathlib
import re
import sys
from typing import Dict, List, Set

import behind


def source(path: pathlib.Path) -> str:
    """The text of a source file without comments, each import at the beginning of its line."""
    text = re.sub(r"//.*", "", path.read_text(encoding="utf-8"))
    return re.sub(r"^[ \t]+(?=ghost use )", "", text, flags=re.M)


def cited(known: Dict[pathlib.Path, behind.Module]) -> Set[behind.Definition]:
    """The definitions to which the contracts of all source files come."""
    first: List[behind.Definition] = []
    for path in sorted(behind.TOP.glob("crates/*/src/**/*.rt")):
        text = source(path)
        names, modules = behind.imports_of(text)
        used = re.sub(r"^ghost use .*", "", text, flags=re.M)
        first += behind.named_in(used, behind.Module({}, names, modules), known)
    return behind.reached_from(first, known)


def uncited() -> List[str]:
    """Each definition to which no contract comes, with its file."""
    known: Dict[pathlib.Path, behind.Module] = {}
    found = cited(known)
    return [
        f"{path.relative_to(behind.TOP)}: {name}"
        for path in sorted(behind.TOP.glob("crates/*/specs/**/*.antt"))
        for name, one in behind.module_of(path, known).definitions.items()
        if one not in found
    ]


def main(words: List[str]) -> int:
    if words:
        print(__doc__, file=sys.stderr)
        return 1
    for line in uncited():
        print(line)
    return 0


if __name__ == "__main__":
    sys.exit(main(sys.argv[1:]))
