#!/usr/bin/env python3
"""Times `argus run` on sparse tables: few firms over tables with levels, with and without a third variable.

    bench/sparse/run.py [PROGRAM]      the program is out/argus where none is named

300 made firms, as bench/large makes them, by regions of two levels (3 with 10 each) and activities of three (2, 2 and 2), which
are 510 cells, and by 5 sizes besides, which are 3,060. Three seeds each. A run has ten minutes. Prints a row for each: cells, argus's line, seconds of processor time.
"""

import os
import resource
import subprocess
import sys
import tempfile

HERE = os.path.dirname(os.path.abspath(__file__))
sys.path.append(os.path.join(HERE, "..", "large"))

import jobs  # noqa: E402

SPARSE = {
    "two variables": ([[3, 10], [2, 2, 2]], 300),
    "three variables": ([[3, 10], [2, 2, 2], [5]], 300),
}
SEEDS = (1, 2, 3)
SECONDS = 600


def seconds():
    """The processor time of all ended children so far."""
    used = resource.getrusage(resource.RUSAGE_CHILDREN)
    return used.ru_utime + used.ru_stime


def timed(program, folder):
    """What the program says of the job in a folder, and its processor time."""
    before = seconds()
    try:
        said = subprocess.run([program, "run", "r.job"], cwd=folder, capture_output=True, text=True, timeout=SECONDS).stdout
    except subprocess.TimeoutExpired:
        said = "no answer in %d s" % SECONDS
    return said.split("\n")[0], seconds() - before


def main():
    program = os.path.abspath(sys.argv[1] if len(sys.argv) > 1 else os.path.join(HERE, "..", "..", "out", "argus"))
    if not os.path.exists(program):
        print("sparse: there is no program %s" % program)
        return 1
    jobs.JOBS.update(SPARSE)
    for name in SPARSE:
        for seed in SEEDS:
            with tempfile.TemporaryDirectory() as folder:
                survey = jobs.write(folder, name, seed)
                said, time = timed(program, folder)
            sensitive = sum(1 for level in survey.levels if level)
            print("%s, seed %d: %d cells, %d sensitive; %s; %.1f s" % (name, seed, len(survey.truths), sensitive, said, time), flush=True)
    return 0


sys.exit(main())
