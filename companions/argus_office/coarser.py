"""What is said of a run without an answer after a minute: which variable of the job has the most
codes, and how the job gets coarser by it.
"""

import re
from itertools import islice
from typing import Dict, List, NamedTuple, Optional, Tuple

# How many records are looked at.
MOST_RECORDS = 100000
TITLE = "argus: no answer after a minute. A coarser job takes less: "


class Place(NamedTuple):
    """A variable of the metadata: where it is, and its levels, where it has any."""

    first: int
    width: int
    levels: int
    is_tree: bool


def places_of(path: str) -> Dict[str, Place]:
    """The variables of the metadata."""
    found: Dict[str, Place] = {}
    name = ""
    with open(path, encoding="latin-1") as file:
        for line in file:
            words = line.split()
            if line.startswith("<") and name and words[0].upper() == "<HIERLEVELS>":
                levels = len([it for it in words[1:] if it != "0"])
                found[name] = found[name]._replace(levels=levels)
            elif line.startswith("<") and name and words[0].upper() == "<HIERCODELIST>":
                found[name] = found[name]._replace(is_tree=True)
            elif len(words) > 2 and words[0][0] not in '</"':
                name = words[0]
                found[name] = Place(int(words[1]), int(words[2]), 0, False)
    return found


def files_of(lines: List[str]) -> Tuple[str, str]:
    """The microdata and the metadata of a job."""
    found = {}
    for line in lines:
        named = re.match(r'[ \t]*<(OPENMICRODATA|OPENMETADATA)>[ \t]*"([^"]*)"', line, re.I)
        if named:
            found[named[1].upper()] = named[2]
    return found["OPENMICRODATA"], found["OPENMETADATA"]


def said_of(job: str) -> Optional[str]:
    """The line on a job of the current folder; none where it can't be read."""
    try:
        with open(job, encoding="latin-1") as file:
            lines = file.read().split("\n")
        fronts = [it.partition("|")[0] for it in lines
                  if it.lstrip().upper().startswith("<SPECIFYTABLE>")]
        tables = [re.findall(r'"([^"]*)"', it) for it in fronts]
        microdata, metadata = files_of(lines)
        places = {name: it for name, it in places_of(metadata).items()
                  if any(name in table for table in tables)}
        codes = counts_of(microdata, places)
        name = max(codes, key=lambda it: (codes[it], it))
    except (OSError, ValueError, LookupError):
        return None
    table = next(k for k, table in enumerate(tables, 1) if name in table)
    text = "%s has the most codes (%d)" % (name, codes[name])
    place = places[name]
    if place.levels > 1 or place.is_tree:
        level = place.levels - 1 if place.levels > 1 else 1
        return TITLE + '%s; <DEPTH> (%d,"%s",%d) leaves lower levels out' % (
            text, table, name, level)
    return TITLE + text + "; merge some of them, or leave a variable out"


def counts_of(path: str, places: Dict[str, Place]) -> Dict[str, int]:
    """How many codes each variable has in the first records."""
    seen: Dict[str, Dict[str, None]] = {name: {} for name in places}
    with open(path, encoding="latin-1", newline="\n") as file:
        for record in islice(file, MOST_RECORDS):
            for name, it in places.items():
                seen[name][record[it.first - 1: it.first - 1 + it.width]] = None
    return {name: len(codes) for name, codes in seen.items()}
