#!/usr/bin/env python3
"""Times `argus run` beside a C program that adds the same records up, and compares the tables of both.

usage: run.py [RECORDS]

It makes the inputs in out/, builds the C program there and, by the script `argus`, the program. Each is run once to
warm up and then five times, in turn; the ratio is that of the medians of the wall times, from start to end of each
process. Beside it stands that of the processor times, which other work on the machine changes less. Its status is 1 where argus doesn't release, or where a table isn't that of the C program.
"""

import os
import resource
import statistics
import subprocess
import sys
import time

HERE = os.path.dirname(os.path.abspath(__file__))
TOP = os.path.dirname(os.path.dirname(HERE))
FOLDER = os.path.join(HERE, "out")
ROUNDS = 5


def processor():
    used = resource.getrusage(resource.RUSAGE_CHILDREN)
    return used.ru_utime + used.ru_stime


def timed(words):
    """The wall time and the processor time of a process, and what it printed."""
    before = processor()
    start = time.perf_counter()
    done = subprocess.run(words, cwd=FOLDER, capture_output=True, text=True, check=False)
    wall = time.perf_counter() - start
    if done.returncode != 0:
        sys.exit(f"{words[0]}: status {done.returncode}: {(done.stdout + done.stderr).strip()}")
    return wall, processor() - before, done.stdout.strip()


def read(name):
    with open(os.path.join(FOLDER, name), "rb") as file:
        return file.read()


def main():
    count = sys.argv[1] if len(sys.argv) > 1 else "1000000"
    subprocess.run([sys.executable, os.path.join(HERE, "generate.py"), FOLDER, count], check=True)
    peer = os.path.join(FOLDER, "sums")
    subprocess.run(["cc", "-O2", "-Wall", "-Wextra", "-o", peer, os.path.join(HERE, "sums.c")], check=True)
    # The script builds the program where that is due; with no word the program touches no file.
    subprocess.run([os.path.join(TOP, "argus")], stdout=subprocess.DEVNULL, check=False)
    argus = [os.path.join(TOP, "out", "argus"), "run", "r.job"]

    for name in ("t.csv", "u.csv", "t.cert", "peer-t.csv", "peer-u.csv"):
        if os.path.exists(os.path.join(FOLDER, name)):
            os.remove(os.path.join(FOLDER, name))
    timed([peer])
    print(timed(argus)[2])
    for ours, theirs in (("t.csv", "peer-t.csv"), ("u.csv", "peer-u.csv")):
        if read(ours) != read(theirs):
            sys.exit(f"{ours} is not {theirs}")
    print("both tables are those of the C program")

    peer_times, argus_times = [], []
    for _ in range(ROUNDS):
        peer_times.append(timed([peer]))
        argus_times.append(timed(argus))
    for at, kind in ((0, "wall"), (1, "processor")):
        ours, theirs = [one[at] for one in argus_times], [one[at] for one in peer_times]
        for name, times in (("C", theirs), ("argus", ours)):
            print(f"{kind}: {name} median {statistics.median(times):.3f} s, from {min(times):.3f} to {max(times):.3f} s")
        print(f"{kind}: ratio {statistics.median(ours) / statistics.median(theirs):.1f}")


if __name__ == "__main__":
    main()
