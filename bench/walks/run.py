#!/usr/bin/env python3
"""Times walks on the problems of the demo's questions beside QSopt_ex and `glpsol --exact`, and compares the values.

usage: run.py [QUESTIONS]

It makes the problems in out/ (see questions.py): for hidden sets of several sizes, so many questions each, to both sides. Each solver
reads a problem from a file, one process a problem; the times are those of the processor and of the wall, reading
included. The program of the walk is built there from the crates of this repository; `esolver` and `glpsol` are those
of Debian's packages qsopt-ex and glpk-utils. Its status is 1 where two values differ.
"""

import os
import re
import resource
import shutil
import subprocess
import sys
import time
from fractions import Fraction

import questions

HERE = os.path.dirname(os.path.abspath(__file__))
TOP = os.path.dirname(os.path.dirname(HERE))
FOLDER = os.path.join(HERE, "out")
TREE = os.path.join(FOLDER, "tree")
SIZES = [100, 200, 300, 400, 460]


def build():
    """The program, over copies of the crates. The test of a problem's form is opened in the copy, for the program to call."""
    crates = os.path.join(TREE, "crates")
    os.makedirs(crates, exist_ok=True)
    copies = [(os.path.join(TOP, "crates", name), name) for name in ("sdc_base", "tableau")]
    for source, name in copies:
        target = os.path.join(crates, name)
        for part in ("src", "specs", "proofs"):
            shutil.rmtree(os.path.join(target, part), ignore_errors=True)
            if os.path.isdir(os.path.join(source, part)):
                shutil.copytree(os.path.join(source, part), os.path.join(target, part))
    driver = os.path.join(crates, "walker", "src")
    os.makedirs(driver, exist_ok=True)
    shutil.copy(os.path.join(HERE, "walker.txt"), os.path.join(driver, "main.rt"))
    with open(os.path.join(TREE, "crates.txt"), "w", encoding="ascii") as out:
        out.write("sdc_base: arrayvec thiserror\ntableau: sdc_base\nwalker: tableau sdc_base\n")
    shutil.copy(os.path.join(TOP, "HANDLES"), TREE)
    edit(os.path.join(crates, "tableau", "src", "lib.rt"), "#[cfg(test)]\nmod form_check;", "mod form_check;\npub use form_check::is_well_formed;")
    edit(os.path.join(crates, "tableau", "src", "form_check.rt"), "pub(crate) fn is_well_formed", "pub fn is_well_formed")
    walker = os.path.join(crates, "walker")
    tiny = "1\n1 0 1\n1 0 1\n"
    done = subprocess.run(["rt", "run"], cwd=walker, input=tiny, capture_output=True, text=True, check=False)
    if done.returncode != 0:
        sys.exit(done.stdout + done.stderr)
    return os.path.join(walker, "out", "walker")


def edit(name, old, new):
    with open(name, encoding="utf-8") as file:
        text = file.read()
    if text.count(old) != 1:
        sys.exit(f"{name}: {old!r} does not stand there once")
    with open(name, "w", encoding="utf-8") as file:
        file.write(text.replace(old, new))


def timed(words, feed=None):
    """Processor and wall time of a process, and what it printed."""
    before = resource.getrusage(resource.RUSAGE_CHILDREN)
    start = time.perf_counter()
    with open(feed or os.devnull, encoding="ascii") as source:
        done = subprocess.run(words, stdin=source, cwd=FOLDER, capture_output=True, text=True, check=False)
    wall = time.perf_counter() - start
    after = resource.getrusage(resource.RUSAGE_CHILDREN)
    return after.ru_utime + after.ru_stime - before.ru_utime - before.ru_stime, wall, done.stdout


def read(name):
    with open(os.path.join(FOLDER, name), encoding="utf-8", errors="replace") as file:
        return file.read()


def main():
    count = int(sys.argv[1]) if len(sys.argv) > 1 else 6
    os.makedirs(FOLDER, exist_ok=True)
    walker = build()
    truths = questions.tabulate()
    cells = list(truths)
    forms = questions.relations(truths)
    differ = 0
    sums = {}
    for size in SIZES:
        group, asked = questions.asked(cells, forms, size, count)
        total = [[0.0, 0.0] for _ in range(3)]
        steps = 0
        for cell in asked:
            for side in (1, -1):
                columns, rows, objective = questions.problem(truths, cells, forms, group, cell)
                objective = [(column, side * number) for column, number in objective]
                made = (columns, rows, objective, questions.TARGET)
                questions.write(os.path.join(FOLDER, "q"), made)
                runs = [
                    timed([walker], os.path.join(FOLDER, "q.txt")),
                    timed(["esolver", "-L", "-O", "q.sol", "q.lp"]),
                    timed(["glpsol", "--exact", "--lp", "q.lp", "-o", "q.out"]),
                ]
                for k, (cpu, wall, _) in enumerate(runs):
                    total[k][0] += cpu
                    total[k][1] += wall
                end, improved, value, den = runs[0][2].split()
                steps += int(improved)
                exact = re.search(r"Value = (\S+)", read("q.sol")).group(1)
                if end == "wide" or Fraction(int(value), int(den)) != Fraction(exact):
                    differ += 1
                    print(f"{size}: {cell} {side}: {end} {value}/{den}, {exact}")
        sums[size] = total
        print(
            f"{len(group)} hidden cells, {2 * count} questions, {steps} steps: "
            + ", ".join(
                f"{name} {cpu:.2f} s of processor, {wall:.2f} s"
                for name, (cpu, wall) in zip(("walk", "QSopt_ex", "glpsol"), total)
            )
            + f"; {1e6 * total[0][0] / max(steps, 1):.0f} us a step"
        )
    walk, peer = (sum(total[k][0] for total in sums.values()) for k in (0, 1))
    print(f"ratio to QSopt_ex, processor times of all: {walk / peer:.2f}; values that differ: {differ}")
    sys.exit(1 if differ else 0)


if __name__ == "__main__":
    main()
