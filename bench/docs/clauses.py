#!/usr/bin/env python3
"""Which clause says which promise: for each clause of a public function the rows of docs/PROVED.md that name it.

usage: bench/docs/clauses.py [--unnamed]

A function is public where `lib.rt` of its crate exports it, or exports the type or trait that it belongs to. A row names a clause
where its column of calls lists it behind the function (`function`: clause), and a clause without a name where it lists the function.
With --unnamed only the clauses that no row names are listed. `run.py` calls this, and counts each of these as a fault.
"""

from __future__ import annotations

import pathlib
import re
import sys
from typing import Dict, Iterator, List, NamedTuple, Optional, Set, Tuple

TOP = pathlib.Path(__file__).resolve().parent.parent.parent
PROVED = TOP / "docs/PROVED.md"
# A clause without a name.
PLAIN = ""


class Clause(NamedTuple):
    """A clause of a public function: its crate, the function with its type or trait, and the clause's name."""

    crate: str
    function: str
    name: str

    def __str__(self) -> str:
        return f"{self.crate}: {self.function}{': ' + self.name if self.name else ''}"


class Row(NamedTuple):
    """A row of PROVED: its promise, and what its column of calls names, pairs of function and clause."""

    promise: str
    names: Set[Tuple[str, str]]


def crates() -> List[str]:
    """The crates, lowest first."""
    lines = (TOP / "crates.txt").read_text(encoding="utf-8").split("\n")
    return [line.split(":")[0] for line in lines if line and not line.startswith("#")]


def exported(crate: str) -> Set[str]:
    """What a crate's lib.rt exports."""
    path = TOP / "crates" / crate / "src/lib.rt"
    text = path.read_text(encoding="utf-8") if path.is_file() else ""
    names: Set[str] = set()
    for many, one in re.findall(r"^pub use [\w:]+::(?:\{([^}]*)\}|(\w+));", text, re.M):
        names.update(name.strip() for name in (many or one).split(",") if name.strip())
    return names


def owner_of(line: str) -> Optional[Tuple[str, bool]]:
    """The type or trait whose functions follow a line, and whether each is public where it is; none for a trait's implementation."""
    trait = re.match(r"pub trait (\w+)", line)
    if trait:
        return trait[1], True
    rest = re.sub(r"^impl\s*(?:<(?:[^<>]|<[^<>]*>)*>)?\s*", "", line)
    named = re.match(r"\w+", rest)
    return (named[0], False) if named and " for " not in rest else None


def clauses_in(text: str, public: Set[str]) -> Iterator[Tuple[str, str]]:
    """The clauses of a file's functions, where these are among what is public: pairs of function and clause."""
    owner: Optional[Tuple[str, bool]] = None
    function: Optional[str] = None
    inside = False
    for line in text.split("\n"):
        head = re.match(r"(\s*)(pub(?:\(\w+\))? )?fn (\w+)", line)
        clause = re.match(r"\s*ensures\*? ?(\w*) ?\{", line)
        if re.match(r"(?:impl\b|pub trait )", line):
            owner, inside = owner_of(line), True
        elif line == "}":
            owner, inside = None, False
        elif head and not inside:
            function = head[3] if head[2] == "pub " and head[3] in public else None
        elif head:
            is_public = owner is not None and owner[0] in public and (owner[1] or head[2] == "pub ")
            function = f"{owner[0]}::{head[3]}" if owner and is_public else None
        elif clause and function:
            yield function, clause[1]


def clauses_of(crate: str) -> List[Clause]:
    """The clauses of a crate's public functions, in the order of its files."""
    public = exported(crate)
    found: List[Clause] = []
    for path in sorted((TOP / "crates" / crate / "src").glob("*.rt")):
        found += [Clause(crate, *pair) for pair in clauses_in(path.read_text(encoding="utf-8"), public)]
    return found


def columns(row: str) -> List[str]:
    """The columns of a row of a table."""
    return [column.strip() for column in re.split(r"(?<!\\)\|", row[1:-1])]


def named_in(calls: str) -> Set[Tuple[str, str]]:
    """What a column of calls names: each function with each clause that is listed behind it, and with none."""
    names: Set[Tuple[str, str]] = set()
    for part in calls.split(";"):
        functions = re.findall(r"`([\w:]+)`", part)
        _, _, listed = re.sub(r"\([^)]*\)|`[^`]*`", "", part).partition(":")
        found = re.findall(r"[a-z_]+", listed)
        names.update((function, clause) for function in functions for clause in [PLAIN, *found])
    return names


def sections() -> Dict[str, List[Row]]:
    """The rows of PROVED, by the crates that the heading of their section names."""
    rows: Dict[str, List[Row]] = {}
    for section in re.split(r"^## ", PROVED.read_text(encoding="utf-8"), flags=re.M)[1:]:
        found = [columns(row) for row in re.findall(r"^\| .*\|$", section, re.M)]
        its = [Row(row[0], named_in(row[2])) for row in found if len(row) >= 5 and row[0] != "Promise"]
        for crate in re.findall(r"`(\w+)`", section.split("\n")[0]):
            rows.setdefault(crate, []).extend(its)
    return rows


def names_it(row: Row, clause: Clause) -> bool:
    """Whether a row names the clause, behind its function with or without its type, trait or crate."""
    short = clause.function.split("::")[-1]
    spelled = {clause.function, short, f"{clause.crate}::{short}"}
    return any((name, clause.name) in row.names for name in spelled)


def promises() -> Iterator[Tuple[Clause, List[str]]]:
    """Each clause of a public function of a crate that PROVED has a section for, with the promises of the rows that name it."""
    rows = sections()
    abroad = [row for its in rows.values() for row in its]
    for crate in crates():
        for clause in clauses_of(crate) if crate in rows else []:
            named = [row.promise for row in rows[crate] if names_it(row, clause)]
            yield clause, named or [row.promise for row in abroad if (f"{crate}::{clause.function}", clause.name) in row.names]


def unnamed() -> List[Clause]:
    """The clauses of public functions that no row names."""
    return [clause for clause, found in promises() if not found]


def main(words: List[str]) -> int:
    if words == ["--unnamed"]:
        print("\n".join(str(clause) for clause in unnamed()))
    elif not words:
        for clause, found in promises():
            print(clause)
            print("\n".join(f"    {promise}" for promise in found) or "    no row names it")
    else:
        print("usage: bench/docs/clauses.py [--unnamed]", file=sys.stderr)
        return 1
    return 0


if __name__ == "__main__":
    sys.exit(main(sys.argv[1:]))
