"""One call of start: reads the words and the CSV, makes the files in a folder of their own,
compares them with the CSV, and puts them in their places. Until then no file of the office changes.
"""

import io
import os
import shutil
import sys
import tempfile
from typing import List, Sequence, Tuple

from argus_office.starting import telling
from argus_office.starting.making import Making
from argus_office.starting.places import check_places, put
from argus_office.starting.refusals import Difference, Refusal, shown
from argus_office.starting.words import HELP, USAGE, Usage, Words


def make(words: Words) -> List[str]:
    """Makes all files, compares them and puts them in their places; what start says of them."""
    makings = [Making(it) for it in words.parts()]
    if len({it.stem for it in makings}) < len(makings):
        raise Usage("two words --value mean the same column")
    for making in makings:
        making.read()
    out, may_replace = makings[0].out, "force" in words.flags
    is_new = not os.path.isdir(out)
    if is_new:
        os.mkdir(out)
    folder = None
    is_done = False
    try:
        folder = tempfile.mkdtemp(prefix=".start-", dir=out)
        files = [making.write(folder) for making in makings]
        for making, names in zip(makings, files):
            making.compare(folder)
            check_places(out, names, making.inputs, may_replace)
        put(folder, out, [name for names in files for name in names], may_replace)
        is_done = True
        return telling.lines_of(makings, files)
    finally:
        if folder:
            shutil.rmtree(folder, ignore_errors=True)
        if is_new and not is_done:
            os.rmdir(out)


def told(words: Sequence[str]) -> Tuple[int, List[str], List[str]]:
    """The status, and the lines for standard output and standard error."""
    if "--help" in words or "-h" in words:
        with open(HELP, encoding="utf-8") as file:
            return 0, file.read().splitlines(), []
    try:
        return 0, make(Words(words)), []
    except Usage as fault:
        return 1, [], ["start: %s" % fault, USAGE]
    except Refusal as fault:
        return 2, [], ["start: %s" % fault]
    except KeyboardInterrupt:
        return 2, [], ["start: broken off, and nothing was written"]
    except MemoryError:
        return 2, [], ["start: there isn't enough memory for this file, and nothing was written"]
    except OSError as fault:
        name = shown(str(fault.filename or "a file"), 80)
        return 2, [], ["start: %s: %s; nothing was written" % (name, fault.strerror or fault)]
    except Difference as fault:
        own = "a fault of start's own (or the CSV changed meanwhile)"
        return 3, [], ["start: %s, and nothing was written: %s" % (own, fault)]
    except Exception as fault:  # pylint: disable=broad-except
        what = "%s: %s" % (type(fault).__name__, shown(str(fault), 200))
        return 3, [], ["start: a fault of start's own, and nothing was written: %s" % what]


def main(words: Sequence[str]) -> int:
    """Prints what is told, and gives the status."""
    status, out, err = told(words)
    for stream, lines in ((sys.stdout, out), (sys.stderr, err)):
        try:
            if isinstance(stream, io.TextIOWrapper):
                stream.reconfigure(errors="backslashreplace")
            stream.write("".join(it + "\n" for it in lines))
            stream.flush()
        except (OSError, ValueError, AttributeError):
            # Whoever read it is gone: the files are there, and the status says so.
            sys.stdout = sys.stderr = open(os.devnull, "w", encoding="utf-8")
    return status
