#!/usr/bin/env python3
"""Times `argus run` on made surveys with the line `<CONTRIBUTORS>` and without, and says how much there was to guard.

usage: run.py PROGRAM

The surveys are those of `../protect/demo.py`, with 2,000 and 1,000 records and three rules on frequency. For each it prints both reports,
the processor seconds of five runs of each, and how many triples there are: for each record that alone makes up a cell, the primary cells
that it doesn't know, times two sides; then how many lines of each kind the contributors' file has. Each release with the line is checked.
Its status is 1 where a run isn't a release or a check doesn't accept one. It stands outside `rt ci`.
"""

import collections
import itertools
import os
import resource
import subprocess
import sys
import tempfile

HERE = os.path.dirname(os.path.abspath(__file__))
sys.path.append(os.path.join(HERE, "..", "protect"))

import demo  # noqa: E402

LINE = '<CONTRIBUTORS> "demo.con"\n'
RUNS = 5
TOTAL = ""


def timed(program, folder, verb, runs):
    """The report of the last of some runs, and the processor seconds of all."""
    before = resource.getrusage(resource.RUSAGE_CHILDREN)
    for _ in range(runs):
        done = subprocess.run([program, verb, "demo.job"], cwd=folder, capture_output=True, text=True, check=False)
    after = resource.getrusage(resource.RUSAGE_CHILDREN)
    return done, after.ru_utime + after.ru_stime - before.ru_utime - before.ru_stime


def above(record):
    """The names of the cells of both tables in which a record falls."""
    region, industry, size = record[:3], record[3:5], record[5:7]
    regions = (region, "P%d" % ((int(region[1:]) - 1) // 4 + 1), TOTAL)
    first = itertools.product(regions, (industry, industry[0], TOTAL), (TOTAL,))
    second = itertools.product(regions, (TOTAL,), (size, TOTAL))
    return set(first) | set(second)


def triples(records, primary):
    """How many there are: a cell of one record is primary under a rule on frequency."""
    fall = collections.defaultdict(list)
    for place, record in enumerate(records):
        for name in above(record):
            fall[name].append(place)
    known = collections.Counter(places[0] for places in fall.values() if len(places) == 1)
    return sum(2 * (primary - count) for count in known.values()), len(known)


def lay(folder, files):
    for name, text in files.items():
        with open(os.path.join(folder, name), "w", encoding="ascii") as file:
            file.write(text)


def tried(program, seed, count, rule):
    files = demo.files(seed, count)
    files["demo.job"] = files["demo.job"].replace("FREQ(3,30)", rule)
    with tempfile.TemporaryDirectory() as folder:
        lay(folder, files)
        plain, without = timed(program, folder, "run", RUNS)
        files["demo.job"] += LINE
        lay(folder, files)
        guarded, with_line = timed(program, folder, "run", RUNS)
        print("%s, %d records: %s" % (rule, count, plain.stdout.strip()))
        print("  with the line: %s" % guarded.stdout.strip())
        print("  %d runs: %.3f s without, %.3f s with" % (RUNS, without, with_line))
        if plain.returncode != 0 or guarded.returncode != 0:
            return False
        primary = int(plain.stdout.split(" primary")[0].split()[-1])
        print("  %d triples, of %d records that stand alone" % triples(files["demo.asc"].splitlines(), primary))
        with open(os.path.join(folder, "demo.con"), encoding="ascii") as file:
            lines = file.read().splitlines()
        kinds = collections.Counter(line.split()[0] for line in lines)
        extra = sum(len(line.split()) - 1 for line in lines if line.startswith("extra "))
        print("  %d extra cells, %d needs, %d guards" % (extra, kinds["need"], kinds["guard"]))
        return timed(program, folder, "check", 1)[0].returncode == 0


def main():
    program = os.path.abspath(sys.argv[1])
    rules = ("FREQ(3,30)", "FREQ(4,30)", "FREQ(5,30)")
    done = [tried(program, seed, count, rule) for rule in rules for seed, count in ((1, 2000), (2, 1000))]
    return 0 if all(done) else 1


sys.exit(main())
