#!/usr/bin/env python3
"""Times `argus run` where many cells are primary, and says what it released.

usage: run.py [PROGRAM]

It makes the files of two surveys (seed 1 with 2,000 records, seed 2 with 1,000; see demo.py) in a folder of their own, runs the program
on each, and prints the report, the processor and the wall seconds, and how many lines of each kind the certificate has. PROGRAM is the built
program; without it, `../../argus` builds one. Its status is 1 where a run isn't a release.
"""

import collections
import os
import resource
import subprocess
import sys
import tempfile
import time

import demo

HERE = os.path.dirname(os.path.abspath(__file__))


def run(program, seed, count):
    with tempfile.TemporaryDirectory() as folder:
        for name, text in demo.files(seed, count).items():
            with open(os.path.join(folder, name), "w", encoding="ascii") as file:
                file.write(text)
        before, begun = resource.getrusage(resource.RUSAGE_CHILDREN), time.monotonic()
        done = subprocess.run([program, "run", "demo.job"], cwd=folder, capture_output=True, text=True, check=False)
        wall, after = time.monotonic() - begun, resource.getrusage(resource.RUSAGE_CHILDREN)
        used = after.ru_utime + after.ru_stime - before.ru_utime - before.ru_stime
        print("seed %d, %d records: %s" % (seed, count, done.stdout.strip()))
        print("  %.2f s processor, %.2f s wall" % (used, wall))
        if done.returncode != 0:
            return False
        with open(os.path.join(folder, "demo.cert"), encoding="ascii") as file:
            kinds = collections.Counter(line.split()[0] for line in file)
        print("  certificate: " + ", ".join("%d %s" % (kinds[kind], kind) for kind in ("step", "repair", "need", "world")))
        return True


def main():
    program = os.path.abspath(sys.argv[1]) if len(sys.argv) > 1 else os.path.join(HERE, "..", "..", "argus")
    done = [run(program, seed, count) for seed, count in ((1, 2000), (2, 1000))]
    return 0 if all(done) else 1


sys.exit(main())
