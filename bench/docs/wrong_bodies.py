"""Whether each wrong body still fits the sources: a wrong body that can't be applied tries nothing."""

import glob
import os
from typing import Iterator, Tuple

PLACES = ("crates/*/must-fail/*.edit", "bench/wrong_bodies/*/*.edit")


def crate_of(top: str, path: str) -> str:
    """The crate of a wrong body, by the folder in which it is."""
    parts = os.path.relpath(path, top).split(os.sep)
    return parts[1] if parts[0] == "crates" else parts[2]


def texts(path: str) -> Tuple[str, list]:
    """The file that a wrong body changes, and the lines that it replaces there."""
    file, olds = "", []
    with open(path, encoding="utf-8") as source:
        for line in source.read().split("\n"):
            if line.startswith("file: "):
                file = line[len("file: ") :].strip()
            elif line.startswith("old: "):
                olds.append(line[len("old: ") :])
    return file, olds


def unfit(top: str) -> Iterator[Tuple[str, str]]:
    """Each wrong body with a text that isn't exactly once in its file, and what is wrong."""
    for place in PLACES:
        for path in sorted(glob.glob(os.path.join(top, place))):
            name = os.path.relpath(path, top)
            file, olds = texts(path)
            whole = os.path.join(top, "crates", crate_of(top, path), file)
            if not file or not olds or not os.path.isfile(whole):
                yield name, "names no file of its crate, or replaces nothing"
                continue
            with open(whole, encoding="utf-8") as source:
                text = source.read()
            for old in olds:
                if text.count(old) != 1:
                    yield name, f"its text is {text.count(old)} times in {file}: {old.strip()}"


def counts(top: str) -> Tuple[int, int]:
    """How many wrong bodies the gate tries, and how many there are beside it."""
    found = [len(glob.glob(os.path.join(top, place))) for place in PLACES]
    return found[0], found[1]
