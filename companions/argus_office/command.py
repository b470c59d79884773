"""The command `argus`: its words are those of the program and those of the companions."""

import importlib
import os
import sys
from typing import List, Optional

from argus_office import __version__
from argus_office.attending import attend
from argus_office.programs import HERE, INSIDE

# Each companion with the module that takes its words.
COMPANIONS = {
    "start": "argus_office.starting.run",
    "explain": "argus_office.explaining.call",
    "page": "argus_office.paging.call",
    "carry": "argus_office.carrying",
    "together": "argus_office.together",
    "whole": "argus_office.whole",
    "seal": "argus_office.sealing",
}


def main(words: List[str]) -> int:
    """Does what the words say, and gives the status."""
    if words[:1] == ["--attend"] and len(words) > 2:
        return attend(words[1], words[2], words[3:])
    if words and words[0] in COMPANIONS:
        status: int = importlib.import_module(COMPANIONS[words[0]]).main(words[1:])
        return status
    if words in (["--help"], ["cells", "--help"]):
        return tell("help.txt" if words == ["--help"] else "help_of_cells.txt")
    if words in (["--version"], ["cells", "--version"]):
        return version()
    return run(words)


def tell(name: str) -> int:
    """Prints a page of help, which the launcher of a clone prints too."""
    with open(os.path.join(HERE, name), encoding="utf-8") as file:
        sys.stdout.write(file.read())
    return 0


def installed() -> int:
    """The entry of an installed package."""
    return main(sys.argv[1:])


def inside(name: str) -> Optional[str]:
    """The program argus or cells that the package has inside."""
    path = os.path.join(INSIDE, name)
    return path if os.access(path, os.X_OK) else None


def run(words: List[str]) -> int:
    """Runs the program; `cells` is one of its own."""
    name = "argus"
    if words[:1] == ["cells"]:
        name, words = "cells", words[1:]
    program = inside(name)
    if program is None:
        print("%s: this package has no program inside" % name, file=sys.stderr)
        return 125
    is_wanted = name == "argus" and os.environ.get("ARGUS_EXPLAIN") == "1"
    if is_wanted or (sys.stderr is not None and sys.stderr.isatty()):
        return attend(name, program, words)
    os.execv(program, [program, *words])


def version() -> int:
    """Says which version of the package this is, and of which sources its programs are."""
    print("argus, argus-office %s" % __version__)
    try:
        with open(os.path.join(INSIDE, "sources.sum"), encoding="utf-8") as file:
            told = dict(line.rstrip("\n").partition(" ")[::2] for line in file)
    except OSError:
        print("this package has no program inside")
        return 0
    print("kit %s" % told.get("kit", "not known"))
    print("program made on %s from commit %s" % (told.get("made", "?"), told.get("commit", "?")))
    return 0
