"""The call of `argus explain`: its words, what it reads, and what it prints."""

import os
import select
import sys
from typing import List

from argus_office.explaining import answers, contributors, mending
from argus_office.reading.files import Unread, shown
from argus_office.reading.job import Job

USAGE = ("usage: argus explain JOB 'ANSWER' ['FURTHER LINE' ..] | argus explain run JOB <ANSWER | "
         "argus explain --lines|--write JOB 'ANSWER' 'multipliers ..'")
# How long a call that has an answer waits for further lines on standard input, in seconds.
WAIT = 0.3


def given(is_asked: bool) -> str:
    """What stands on standard input. Where the words have the answer already, nobody waits long for
    more."""
    if sys.stdin is None or sys.stdin.isatty():
        return ""
    data = b""
    while True:
        if is_asked and not select.select([sys.stdin], [], [], WAIT)[0]:
            break
        piece = os.read(sys.stdin.fileno(), 65536)
        if not piece or len(data) > 10**7:
            break
        data += piece
    return data.decode("utf-8", "surrogateescape")


def needs_input(words: List[str]) -> bool:
    """Whether the answer, or its line of multipliers, is to come from standard input."""
    asked = answers.asked_of(words, "")
    if asked is None or asked.words:
        return True
    text = "\n".join(asked.answer)
    return "cannot protect" in text and "multipliers" not in text


def printed(told: answers.Said, is_lines: bool) -> str:
    """What is printed: each line of the explanation behind two blanks, then the lines for a priori
    files, if they aren't too many. Of the latter alone the line that says where they go is left
    out, if there is one."""
    rows, lists = told.rows(), [it for it in told.priors if it.lines]
    if is_lines:
        return "".join(it + "\n" for it in (rows if len(lists) > 1 else rows[1:]))
    text = "".join("  %s\n" % it for it in told.lines)
    if len(rows) <= contributors.MOST_LINES + 1:
        return text + "".join(map(line_of, rows))
    text += "".join("  %s %d lines\n" % (it.where.rstrip(":") + ":", len(it.lines))
                    for it in lists)
    return text + ("  argus explain --write, with the same words, writes them and a job with them; "
                   "--lines prints them.\n")


def written(asked: answers.Asked, told: answers.Said) -> str:
    """Writes the lines for a priori files, and gives what to say of it. Raises Unwritten."""
    names = mending.write(Job(asked.job), told.priors)
    return "  Written: %s. Next: argus run %s\n" % (", ".join(names), names[-1])


def line_of(row: str) -> str:
    """A line for an a priori file, spelled out where it can't be printed."""
    if not row.isprintable():
        row = shown(row.encode("utf-8", "surrogateescape"), 300)[1:-1]
    return row + "\n"


def said(words: List[str]) -> int:
    """Prints what explain says, and gives the status."""
    way = words[0] if words[:1] in (["--lines"], ["--write"]) else ""
    words = words[1:] if way else words
    if not words or words[0] in ("-h", "--help"):
        print(USAGE)
        return 0 if words else 1
    is_asked = answers.asked_of(words, "") is not None and words[0] not in answers.WORDS
    rest = given(is_asked) if needs_input(words) else ""
    asked = answers.asked_of(words, rest)
    if asked is None:
        print(USAGE)
        return 1
    told = answers.explained(asked)
    text, status = printed(told, way == "--lines"), 0 if told.lines else 2
    if way == "--write":
        try:
            text = written(asked, told)
        except (mending.Unwritten, Unread) as fault:
            text, status = "  %s.\n" % str(fault), 2
    sys.stdout.buffer.write(text.encode("utf-8", "surrogateescape"))
    sys.stdout.flush()
    return status


def main(words: List[str]) -> int:
    """Prints what explain says to these words, and gives the status."""
    try:
        return said(words)
    except BrokenPipeError:
        os._exit(0)
    except Exception as fault:  # an explanation that fails says so, in one line
        print("  explain couldn't look further into it (%s)." % (type(fault).__name__))
        return 2
