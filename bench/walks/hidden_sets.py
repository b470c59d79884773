#!/usr/bin/env python3
"""Sets `argus intervals` beside QSopt_ex and `glpsol --exact` for hidden sets drawn at random.

usage: hidden_sets.py PROGRAM [SIZE..]

It releases the tables of the made survey of `../protect/demo.py` with 6,000 records and nothing hidden, writes `x` for as many cells as SIZE
says, and asks for the intervals of all. Then it takes twelve of these cells and solves the two problems of each with both solvers, one process
a problem, reading included. It prints the processor times for each question, and compares the ends with those of QSopt_ex; its status is 1
where two differ. It needs Debian's packages qsopt-ex and glpk-utils, and stands outside `rt ci`.
"""

import os
import random
import subprocess
import sys
import tempfile

HERE = os.path.dirname(os.path.abspath(__file__))
sys.path.insert(0, os.path.join(HERE, "..", "protect"))

import demo  # noqa: E402
import peers  # noqa: E402

RECORDS = 6000


def hide(folder, survey, hidden, name, variable):
    """Writes `x` for the hidden cells of a table, by the region and this variable."""
    path = os.path.join(folder, name)
    with open(path, encoding="ascii") as source:
        head, *lines = source.read().splitlines()
    places = [(region, code) for region in range(len(survey.trees[0])) for code in range(len(survey.trees[variable]))]
    shown = []
    for (region, code), line in zip(places, lines):
        number = survey.number[(region, code, 0) if variable == 1 else (region, 0, code)]
        shown.append(line.rsplit(",", 1)[0] + ",x" if number in hidden else line)
    with open(path, "w", encoding="ascii") as out:
        out.write("\n".join([head] + shown) + "\n")


def exactly(folder):
    seconds, _ = peers.timed(["glpsol", "--exact", "--lp", "q.lp", "-o", "q.out"], folder)
    return seconds


def compare(program, survey, size):
    hidden = set(random.Random(size).sample(range(len(survey.truths)), size))
    with tempfile.TemporaryDirectory() as folder:
        files = demo.files(1, RECORDS)
        files["demo.job"] = demo.JOB.replace("FREQ(3,30)|P(10)", "FREQ(1,30)")
        for name, text in files.items():
            with open(os.path.join(folder, name), "w", encoding="ascii") as out:
                out.write(text)
        subprocess.run([program, "run", "demo.job"], cwd=folder, check=True, capture_output=True)
        hide(folder, survey, hidden, "industry.csv", 1)
        hide(folder, survey, hidden, "size.csv", 2)
        seconds, done = peers.timed([program, "intervals", "demo.job", "ranges.csv"], folder)
        with open(os.path.join(folder, "ranges.csv"), encoding="ascii") as source:
            lines = source.read().split()[1:]
        spent, beside, differ = 0.0, 0.0, 0
        for line in random.Random(1).sample(lines, min(12, len(lines))):
            number, low, high = line.split(",")
            cell = int(number)
            down, used = peers.solved(folder, peers.as_lp(survey, hidden, cell, -1, peers.TARGET))
            beside += exactly(folder)
            up, more = peers.solved(folder, peers.as_lp(survey, hidden, cell, 1, peers.TARGET))
            beside += exactly(folder)
            spent += used + more
            differ += survey.truths[cell] - down != peers.end(low)
            differ += (None if up == peers.TARGET else survey.truths[cell] + up) != peers.end(high)
        count = 2 * min(12, len(lines))
        print(
            "%d hidden: %s, %.1f ms a question; QSopt_ex %.1f ms, glpsol %.1f ms; %d differ"
            % (size, done.stdout.strip(), 1000 * seconds / (2 * len(lines)), 1000 * spent / count, 1000 * beside / count, differ)
        )
    return differ == 0


def main():
    program = os.path.abspath(sys.argv[1])
    sizes = [int(size) for size in sys.argv[2:]] or [100, 200, 300, 400, 460]
    survey = peers.Survey(1, RECORDS)
    done = [compare(program, survey, size) for size in sizes]
    return 0 if all(done) else 1


if __name__ == "__main__":
    sys.exit(main())
