#!/usr/bin/env python3
"""Damages inputs in ten thousand ways, and looks at what argus says of each.

usage: run.py PROGRAM [COUNT] [SEED]

It takes seven examples with all files that their jobs and metadata name, releases them once, and then damages one file at a time, of every
kind: job, metadata, hierarchy, code list, microdata, a priori file, certificate, file of `<CONTRIBUTORS>` and table. A damage flips a bit,
raises a byte, cuts the file, doubles a part of it, drops a part, moves a line or puts another file in its place. The words are `run`,
`check`, `intervals`, `audit` or `migrate`, as the kind of the file and the job ask. Each call has to end within ten seconds with a status of
argus and a line that the manual has for this call, with a kind of fault that the manual names; afterwards no file may differ but those that it
may put. It prints how many calls ended with each status and with each answer, and each call that broke this; its status is then 1. COUNT
is 10,000 and SEED 1 where they aren't given. It stands outside `rt ci`.
"""

import collections
import os
import random
import re
import shutil
import subprocess
import sys
import tempfile

HERE = os.path.dirname(os.path.abspath(__file__))
TOP = os.path.dirname(os.path.dirname(HERE))
EXAMPLES = os.path.join(TOP, "examples")
# An example, its job, and the words that ask for a file about its tables: one that hides isn't audited.
JOBS = (
    ("protected", "turnover.job", ("intervals",)),
    ("linked", "firms.job", ("intervals",)),
    ("manual", "survey.job", ("intervals",)),
    ("stated", "stated.job", ("intervals",)),
    ("rounded", "turnover.job", ("audit", "intervals")),
    ("audited", "known.job", ("audit",)),
    ("insider", "rest.job", ("intervals",)),
)
PUT = (".cert", ".csv", ".extra")

SIDE = "(above|below)"
FILE = r"(job|metadata|codelist \d+|hierarchy \d+|microdata|apriori table \d+|certificate|contributors|table \d+|out)"
REFUSED = rf"refused: ({FILE}( line \d+)?|record \d+): (?P<kind>[A-Z][A-Za-z]+)( [A-Z]+)?"
WORLD = r"(Den|Order \d+|Shown \d+|Bound \d+|Relation \d+)"
MULTIPLIERS = r"(Den|Order \d+|Wide \d+|Unbounded \d+|NotBelow)"
NOT_ACCEPTED = (
    rf"not accepted: (Counts|Method|(PrimaryShown|FixedHidden|Step|RepairCell|Outside|WorldCell|NeedCell|Rounded|Relation) \d+|Release \d+ \d+|"
    rf"(Repair|Need) \d+ {MULTIPLIERS}|World \d+ {WORLD}|NotReached \d+ {SIDE})"
)
NOT_GUARDED = rf"not guarded: ((Cell|NeedCell|GuardCell) \d+|Need \d+ {MULTIPLIERS}|Guard \d+ {WORLD}|Open \d+ \d+ {SIDE})"
CANNOT = rf"cannot protect cell \d+ {SIDE}( from row \d+)?\nmultipliers \d+( \d+:-?\d+)*|no rounding"
QUESTION = rf"undecided: (work, cell \d+ {SIDE}, \d+ steps|wide, cell \d+ {SIDE}|size, cell \d+ {SIDE}, \d+ hidden)"
READ = f"read fault: {FILE}"
OUT = "write fault: out"
# What each call may answer by the manual, by its status. There is ample memory here.
LINES = {
    "run": {
        0: r"released: \d+ records, \d+ skipped, \d+ passed over, \d+ cells, \d+ primary, \d+ hidden",
        2: REFUSED,
        3: CANNOT,
        4: rf"{QUESTION}|undecided: nodes, \d+",
        5: READ,
        6: f"write fault: {FILE}",
    },
    "check": {0: "accepted", 2: REFUSED, 3: f"{NOT_ACCEPTED}|{NOT_GUARDED}", 5: READ},
    "intervals": {0: r"intervals: \d+ cells", 2: REFUSED, 3: r"not accepted: (Release \d+ \d+|FixedHidden \d+)", 4: QUESTION, 5: READ, 6: OUT},
    "audit": {
        0: r"audited: \d+ primary, \d+ exposed",
        2: REFUSED,
        3: r"not accepted: (Release \d+ \d+|Rounded \d+|Relation \d+)",
        4: QUESTION,
        5: READ,
        6: OUT,
    },
    "migrate": {0: "migrated", 2: REFUSED, 5: READ, 6: OUT},
}
with open(os.path.join(TOP, "docs", "MANUAL.md"), encoding="utf-8") as manual:
    # The kinds of faults: each stands in the manual by itself, or with what it is about.
    KINDS = set(re.findall(r"`([A-Z][A-Za-z]+)[ `]", manual.read()))


def damaged(draw, whole, other):
    """The bytes with one damage."""
    if not whole:
        return other
    place, size = draw.randrange(len(whole)), draw.randrange(1, 40)
    lines = whole.split(b"\n")
    first, second = draw.randrange(len(lines)), draw.randrange(len(lines))
    moved = lines[:first] + lines[first + 1 :]
    moved.insert(second, lines[first])
    return draw.choice(
        (
            lambda: whole[:place] + bytes([whole[place] ^ (1 << draw.randrange(8))]) + whole[place + 1 :],
            lambda: whole[:place] + bytes([(whole[place] + 1) % 256]) + whole[place + 1 :],
            lambda: whole[:place],
            lambda: whole[:place] + whole[place : place + size] + whole[place:],
            lambda: whole[:place] + whole[place + size :],
            lambda: b"\n".join(moved),
            lambda: other,
        )
    )()


def contents(folder):
    held = {}
    for name in os.listdir(folder):
        with open(os.path.join(folder, name), "rb") as file:
            held[name] = file.read()
    return held


def named_files(held, job):
    """The files of an example that its job or its metadata names, and the job itself."""
    text = b"".join(data for name, data in held.items() if name == job or name.endswith(".rda"))
    return {name: data for name, data in held.items() if name == job or b'"%s"' % name.encode() in text}


def words_for(draw, name, job, looks):
    look = [draw.choice(looks), job, "looked.out"]
    if name.endswith(".cert"):
        return draw.choice((["check", job], look, ["migrate", name, "again.out"]))
    if name.endswith(PUT):
        return draw.choice((["check", job], look))
    return draw.choice((["run", job], ["check", job], look))


def is_right(words, done, before, after):
    said = done.stdout.decode("ascii", "replace")
    line = LINES[words[0]].get(done.returncode)
    found = line and re.fullmatch("(?:%s)\n" % line, said)
    if not found or found.groupdict().get("kind") not in {None, *KINDS}:
        return False
    put = {name for name in before.keys() | after.keys() if before.get(name) != after.get(name)}
    if not said.startswith(("released", "intervals", "audited", "migrated", "write fault")):
        return not put
    # No input differs: `run` puts new files and the outputs of an earlier run, the others put the file that they name.
    return all(name not in before or name.endswith(PUT) for name in put) if words[0] == "run" else put <= {words[2]}


def numbers(counted):
    return ", ".join(f"{count:,} {what}" for what, count in sorted(counted.items()))


def main():
    program = os.path.abspath(sys.argv[1])
    count = int(sys.argv[2]) if len(sys.argv) > 2 else 10000
    draw = random.Random(int(sys.argv[3]) if len(sys.argv) > 3 else 1)
    statuses, answers, broken = collections.Counter(), collections.Counter(), 0
    with tempfile.TemporaryDirectory() as room:
        whole = {}
        for example, job, _ in JOBS:
            folder = os.path.join(room, example)
            shutil.copytree(os.path.join(EXAMPLES, example), folder)
            subprocess.run([program, "run", job], cwd=folder, capture_output=True, check=True)
            whole[example] = named_files(contents(folder), job)
            shutil.rmtree(folder)
        for number in range(count):
            example, job, looks = draw.choice(JOBS)
            files = dict(whole[example])
            name, other = draw.choice(sorted(files)), draw.choice(sorted(files))
            files[name] = damaged(draw, files[name], files[other])
            folder = os.path.join(room, str(number))
            os.mkdir(folder)
            for file, data in files.items():
                with open(os.path.join(folder, file), "wb") as out:
                    out.write(data)
            words = words_for(draw, name, job, looks)
            try:
                done = subprocess.run([program] + words, cwd=folder, capture_output=True, check=False, timeout=10)
            except subprocess.TimeoutExpired:
                broken += 1
                print("no end:", example, name, words)
                continue
            statuses[f"with status {done.returncode}"] += 1
            # The answer without its numbers, and of a refused file that of contributors by itself.
            said = re.match(r"(refused: contributors|[a-z ]*[a-z])?", done.stdout.decode("ascii", "replace"))[0]
            answers[f"{words[0]} {said}"] += 1
            if not is_right(words, done, files, contents(folder)):
                broken += 1
                print("wrong:", number, example, name, words, done.returncode, done.stdout[:200])
            shutil.rmtree(folder)
    print(numbers(answers))
    print("%d damaged inputs: %s; %d wrong" % (count, numbers(statuses), broken))
    return 1 if broken else 0


sys.exit(main())
