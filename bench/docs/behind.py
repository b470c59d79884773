#!/usr/bin/env python3
"""Counts what stands behind each clause of `run`: the definitions that its text comes to when every name is looked up.

usage: bench/docs/behind.py [--names CLAUSE-OR-PART | --write]

For each `ensures` of `run` (crates/job_run/src/running.rt) a row: how many definitions of this repository stand behind it, in how many
lines (without blank lines and comments), files and crates; and first a row for each part of the promise, by the definitions with which it
begins. Definitions are those of crates/*/specs; what the code declares (structs and enums) and the words of the kit's library aren't
counted. With --names the definitions behind one clause, or one part, are listed instead, by file; with --write the table of docs/MODEL.md
is replaced by the one that would be printed.
"""

from __future__ import annotations

import pathlib
import re
import sys
from typing import Dict, List, NamedTuple, Set, Tuple

TOP = pathlib.Path(__file__).resolve().parent.parent.parent
RUN = TOP / "crates/job_run/src/running.rt"
PROMISE = TOP / "crates/job_run/specs/Promise.antt"
MODEL = TOP / "docs/MODEL.md"
# parts of the promise, each with the definitions of Promise with which it begins
PARTS = {
    "shown, protected": ["HidingTables"],
    "shown, sensitive, protected": ["HidingTables", "HasCellsByRules"],
    "these, guarded or rounded": ["HidingTables", "HasCellsByRules", "GuardsEachCell", "RoundedTables"],
}
HEADS = ["| Clause of `run` | Definitions | Lines | Files | Crates |", "|---|---|---|---|---|"]
HEAD = re.compile(r"^(?:abbrev|unfoldable)?\s*(?:pub )?(?:record |data )?(?:pub )?([A-Za-z_][\w\-]*)\s*(?:[:({]|$)")
# the definition by which the files of a job are read
READING = "settled_of"
WORD = re.compile(r"[A-Za-z_][\w\-]*(?:\.[A-Za-z_][\w\-]*)?")


class Definition(NamedTuple):
    """A definition: its file, its name, and its lines without blank ones and comments."""

    file: pathlib.Path
    name: str
    lines: Tuple[str, ...]


class Module(NamedTuple):
    """A file of definitions: what it defines, and what each of its imported names stands for."""

    definitions: Dict[str, Definition]
    names: Dict[str, Tuple[str, str]]
    modules: Dict[str, str]


def path_of(module: str) -> pathlib.Path:
    """The file of a module such as Rattle.worlds.specs.Protection."""
    parts = module.split(".")
    return TOP.joinpath("crates", parts[1], *parts[2:-1], parts[-1] + ".antt")


def imports_of(text: str) -> Tuple[Dict[str, Tuple[str, str]], Dict[str, str]]:
    """The names that lines of `use` bring in, each with its module and its name there; and the modules that have a name."""
    names: Dict[str, Tuple[str, str]] = {}
    modules: Dict[str, str] = {}
    for line in re.findall(r"^(?:ghost )?use (Rattle\.[^;\n]*);?$", text, re.M):
        many = re.match(r"(Rattle[\w.]*)\.\{(.*)\}$", line)
        if many:
            for one in many.group(2).split(","):
                there, _, here = one.strip().partition(" as ")
                names[here or there] = (many.group(1), there)
        elif " as " in line:
            module, here = line.split(" as ")
            modules[here.strip()] = module.strip()
    return names, modules


def begins(line: str) -> str:
    """The name that a line begins to define, or nothing: a word of type or a record begins one, an equation goes on."""
    if not line or line[0] in " -" or line.startswith(("use ", "pub mod", "module ", "unfolding")):
        return ""
    found = HEAD.match(line)
    is_head = line.startswith(("abbrev", "unfoldable", "record", "pub record", "data", "pub data")) or " : " in line
    return found.group(1) if found and is_head else ""


def module_of(path: pathlib.Path, known: Dict[pathlib.Path, Module]) -> Module:
    """A file of definitions, read once."""
    if path in known:
        return known[path]
    text = path.read_text(encoding="utf-8")
    names, modules = imports_of(text)
    kept: Dict[str, List[str]] = {}
    name = ""
    for line in text.split("\n"):
        if line.startswith("use ") or line.lstrip().startswith("--"):
            continue
        first = begins(line)
        if first and first not in kept:
            name = first
            kept[name] = []
        if name and line.strip():
            kept[name].append(line)
    definitions = {one: Definition(path, one, tuple(lines)) for one, lines in kept.items()}
    known[path] = Module(definitions, names, modules)
    return known[path]


def found_at(module: str, name: str, known: Dict[pathlib.Path, Module]) -> List[Definition]:
    """The definition of a name in a module of this repository's specs, if it is one."""
    path = path_of(module)
    if ".specs.declared." in module or not path.is_file():
        return []
    its = module_of(path, known)
    if name in its.definitions:
        return [its.definitions[name]]
    if name in its.names:
        return found_at(*its.names[name], known)
    return []


def named_in(text: str, module: Module, known: Dict[pathlib.Path, Module]) -> List[Definition]:
    """The definitions that a text names, by the imports of its file."""
    found: List[Definition] = []
    for word in WORD.findall(text):
        first, _, rest = word.partition(".")
        if rest and first in module.modules:
            found += found_at(module.modules[first], rest, known)
        elif first in module.definitions:
            found.append(module.definitions[first])
        elif first in module.names:
            found += found_at(*module.names[first], known)
    return found


def behind(text: str, module: Module, known: Dict[pathlib.Path, Module]) -> Set[Definition]:
    """All definitions behind a text: those that it names, and those that these name."""
    return reached_from(named_in(text, module, known), known)


def reached_from(first: List[Definition], known: Dict[pathlib.Path, Module]) -> Set[Definition]:
    """Some definitions, and all those that they name, or that are named by one that they come to."""
    seen: Set[Definition] = set()
    open_ = list(first)
    while open_:
        one = open_.pop()
        if one not in seen:
            seen.add(one)
            open_ += named_in("\n".join(one.lines), module_of(one.file, known), known)
    return seen


def clauses() -> Tuple[List[Tuple[str, str]], Module]:
    """The clauses of `run` with their names, and what its file brings in."""
    text = RUN.read_text(encoding="utf-8")
    start = text.index("pub fn run<")
    head = text[start : text.index("\n{\n", start)]
    head = re.sub(r"//.*", "", head)
    parts = re.findall(r"ensures (\w+) \{(.*?)\}(?=\s*(?:ensures|$))", head, re.S)
    names, modules = imports_of(text)
    return parts, Module({}, names, modules)


def crate_of(file: pathlib.Path) -> str:
    """The crate of a file."""
    return file.relative_to(TOP / "crates").parts[0]


def row(name: str, found: Set[Definition], of: str = "") -> str:
    """A clause's row of the table."""
    lines = sum(len(one.lines) for one in found)
    files = {one.file for one in found}
    return f"| `{name}`{of} | {len(found):,} | {lines:,} | {len(files)} | {len({crate_of(one) for one in files})} |"


def part(name: str, known: Dict[pathlib.Path, Module]) -> Set[Definition]:
    """The definitions behind a part of the promise."""
    return behind(" ".join(PARTS[name]), module_of(PROMISE, known), known)


def table() -> List[str]:
    """The table's lines, with its head."""
    known: Dict[pathlib.Path, Module] = {}
    parts, module = clauses()
    rows = [row("promise", part(name, known), f": {name}") for name in PARTS]
    for name, text in parts:
        # how inputs are read is a page of its own
        if READING in text:
            rows.append(row(name, behind(text.replace(READING, ""), module, known), " of what was read"))
        rows.append(row(name, behind(text, module, known)))
    return [*HEADS, *rows]


def lines_of(found: Set[Definition]) -> List[str]:
    """A line for each definition: its file, its name and its number of lines."""
    ordered = sorted(found, key=lambda one: (str(one.file), one.name))
    return [f"{one.file.relative_to(TOP)}: {one.name} ({len(one.lines)})" for one in ordered]


def listing(wanted: str) -> List[str]:
    """The definitions behind one clause or one part of the promise, by file."""
    known: Dict[pathlib.Path, Module] = {}
    if wanted in PARTS:
        return lines_of(part(wanted, known))
    parts, module = clauses()
    for name, text in parts:
        if name == wanted:
            return lines_of(behind(text, module, known))
    return [f"run has no clause {wanted}, and the promise no such part; its parts are: {'; '.join(PARTS)}"]


def write() -> None:
    """Puts the table into MODEL, in place of the one that stands there."""
    text = MODEL.read_text(encoding="utf-8")
    start = text.index("\n".join(HEADS))
    end = text.index("\n\n", start)
    MODEL.write_text(text[:start] + "\n".join(table()) + text[end:], encoding="utf-8")


def main(words: List[str]) -> int:
    if len(words) == 2 and words[0] == "--names":
        print("\n".join(listing(words[1])))
    elif words == ["--write"]:
        write()
    elif not words:
        print("\n".join(table()))
    else:
        print("usage: bench/docs/behind.py [--names CLAUSE-OR-PART | --write]", file=sys.stderr)
        return 1
    return 0


if __name__ == "__main__":
    sys.exit(main(sys.argv[1:]))
