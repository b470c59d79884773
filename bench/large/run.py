#!/usr/bin/env python3
"""Times argus on jobs as offices have them, beside QSopt_ex for the questions about the hidden set.

usage: run.py PROGRAM [JOB..]

For each job of jobs.py with three seeds each, and for the public data of laeken.py (job `laeken`, without a seed), or for those of them that are
named, it calls `run`, `check` and `intervals`. Where the data aren't there, a line says so, and the job is left out. Then it writes questions
about the hidden set of the certificate as linear problems: those of its protection (a primary cell to a side, with its level as target), and those
of the intervals (a hidden cell to a side, with target 2^110). Each is solved by `esolver` of Debian's package qsopt-ex, one process a problem,
reading included. Of more than QUESTIONS (of the environment, 100 where nothing is said) so many are drawn at random, and their time is
taken times the share. A call of argus has SECONDS (600). It prints a table of processor times in seconds and of the ratios of `run` and of
`intervals` to QSopt_ex. The status is 1 where a level isn't reached or an end differs. It stands outside `rt ci`.
"""

import os
import random
import resource
import subprocess
import sys
import tempfile

import jobs
import laeken

peers = jobs.peers
SEEDS = (1, 2, 3)
PUBLIC = "laeken"
QUESTIONS = int(os.environ.get("QUESTIONS", "100"))
SECONDS = int(os.environ.get("SECONDS", "600"))
COLUMNS = ("job", "seed", "cells", "primary", "hidden", "run", "check", "intervals", "levels", "ratio", "ends", "ratio")


def called(program, words, folder):
    """What the program says and its processor time; nothing where it has no status 0 or its time ran out."""
    before = peers.used()
    limit = (SECONDS, SECONDS)
    done = subprocess.run(
        [program, *words],
        cwd=folder,
        capture_output=True,
        text=True,
        check=False,
        preexec_fn=lambda: resource.setrlimit(resource.RLIMIT_CPU, limit),
    )
    return done.stdout.strip() if done.returncode == 0 else None, peers.used() - before


def hidden_in(folder):
    """The hidden cells of the certificate."""
    with open(os.path.join(folder, "t.cert"), encoding="ascii") as source:
        lines = [line for line in source if line.startswith("hidden ")]
    return set(map(int, lines[0].split()[1:])) if lines else set()


def drawn(questions):
    """At most so many of the questions, and how many questions stand for one of them."""
    some = random.Random(1).sample(questions, min(QUESTIONS, len(questions)))
    return some, len(questions) / max(1, len(some))


def levels_by_peer(survey, hidden, folder):
    """The time for the questions of the protection, and how many levels aren't reached."""
    primary = [cell for cell in sorted(hidden) if survey.levels[cell] is not None]
    some, share = drawn([(cell, side) for cell in primary for side in (1, -1)])
    spent, differ = 0.0, 0
    for cell, side in some:
        wanted = survey.levels[cell] if side == 1 else min(survey.levels[cell], survey.truths[cell])
        best, seconds = peers.solved(folder, peers.as_lp(survey, hidden, cell, side, wanted))
        spent += seconds
        differ += best != wanted
    return spent * share, differ


def ends_by_peer(survey, hidden, folder):
    """The time for the questions of the intervals, and how many ends differ from those in the file."""
    with open(os.path.join(folder, "i.csv"), encoding="ascii") as source:
        rows = [line.split(",") for line in source.read().split()[1:]]
    some, share = drawn([(int(cell), side, low if side == -1 else high) for cell, low, high in rows for side in (1, -1)])
    spent, differ = 0.0, 0
    for cell, side, text in some:
        far, seconds = peers.solved(folder, peers.as_lp(survey, hidden, cell, side, peers.TARGET))
        spent += seconds
        differ += (None if far == peers.TARGET else survey.truths[cell] + side * far) != peers.end(text)
    return spent * share, differ


def ratio(ours, theirs):
    return "%.1f" % (ours / theirs) if theirs else "-"


def write(folder, name, seed):
    """Writes the files of a job, and gives the cells of its table."""
    return laeken.write(folder) if name == PUBLIC else jobs.write(folder, name, seed)


def measure(program, name, seed):
    """A line of the table, and how many answers of QSopt_ex differ."""
    with tempfile.TemporaryDirectory() as folder:
        survey = write(folder, name, seed)
        line = [name, str(seed), str(len(survey.truths)), str(sum(level is not None for level in survey.levels))]
        said, ran = called(program, ["run", "r.job"], folder)
        if said is None:
            return [*line, "-", f"none in {ran:.0f}"], 0
        checked, looked = called(program, ["check", "r.job"], folder)
        found, asked = called(program, ["intervals", "r.job", "i.csv"], folder)
        hidden = hidden_in(folder)
        levels, short = levels_by_peer(survey, hidden, folder)
        ends, differ = ends_by_peer(survey, hidden, folder) if found else (0.0, 0)
        short += checked is None
        times = ["%.2f" % ran, "%.2f" % looked, "%.2f" % asked if found else f"none in {asked:.0f}"]
        times += ["%.2f" % levels, ratio(ran, levels), "%.2f" % ends, ratio(asked, ends)]
        return [*line, str(len(hidden)), *times], short + differ


def main():
    program = os.path.abspath(sys.argv[1])
    differ = 0
    print("| " + " | ".join(COLUMNS) + " |", flush=True)
    print("|---" * len(COLUMNS) + "|", flush=True)
    for name in sys.argv[2:] or [*jobs.JOBS, PUBLIC]:
        for seed in ("-",) if name == PUBLIC else SEEDS:
            try:
                line, more = measure(program, name, seed)
            except laeken.NoData as reason:
                print(reason, file=sys.stderr)
                continue
            differ += more
            print("| " + " | ".join(line) + " |", flush=True)
    print("answers that differ: %d" % differ)
    return 1 if differ else 0


if __name__ == "__main__":
    sys.exit(main())
