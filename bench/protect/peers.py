#!/usr/bin/env python3
"""Sets the time of `argus run` and `argus intervals` beside that of QSopt_ex for the same questions.

usage: peers.py PROGRAM

For the surveys of run.py it runs the job and reads the hidden cells off the certificate. Then it writes each question about them as a
linear problem: those of the protection (each primary cell to both sides, with its level as target), and those of the intervals (each
hidden cell to both sides, with target 2^110). Each is solved by `esolver` of Debian's package qsopt-ex, one process a problem, reading
included. It prints the processor times, and compares the ends of the intervals; its status is 1 where two differ. It stands outside
`rt ci`.
"""

import os
import re
import resource
import subprocess
import sys
import tempfile
from fractions import Fraction

import demo

TARGET = 2**110


def tree(codes, parent):
    """Codes in preorder behind the total, each with the number of its parent."""
    places = {code: k + 1 for k, code in enumerate(codes)}
    return [None] + [places[parent(code)] if parent(code) else 0 for code in codes], places


class Survey:
    """The cells of the two tables by their numbers, with truths, levels of the primary ones, and relations."""

    def __init__(self, seed, count):
        lines = demo.records(seed, count).splitlines()
        rows = [(line[:3], line[3:5], line[5:7], int(line[7:])) for line in lines]
        regions = [line.lstrip("@") for line in demo.regions().split()]
        industries = sorted({row[1] for row in rows} | {row[1][0] for row in rows})
        sizes = sorted({row[2] for row in rows})
        self.trees = []
        places = []
        for codes, parent in (
            (regions, lambda code: "P%d" % ((int(code[1:]) - 1) // 4 + 1) if code[0] == "R" else None),
            (industries, lambda code: code[0] if len(code) == 2 else None),
            (sizes, lambda code: None),
        ):
            parents, place = tree(codes, parent)
            self.trees.append(parents)
            places.append(place)
        self.number = {}
        for name in [(r, i, 0) for r in range(len(self.trees[0])) for i in range(len(self.trees[1]))] + [
            (r, 0, s) for r in range(len(self.trees[0])) for s in range(len(self.trees[2]))
        ]:
            self.number.setdefault(name, len(self.number))
        values = [[] for _ in self.number]
        for row in rows:
            code = [places[k][row[k]] for k in range(3)]
            ups = [self.above(k, code[k]) for k in range(3)]
            for name, number in self.number.items():
                if all(name[k] in ups[k] for k in range(3)):
                    values[number].append(row[3])
        self.truths = [sum(them) for them in values]
        self.levels = [level(them) for them in values]
        self.relations = self.made_relations()

    def above(self, variable, place):
        found = []
        while place is not None:
            found.append(place)
            place = self.trees[variable][place]
        return found

    def made_relations(self):
        found = []
        tables = [(0, 1), (0, 2)]
        for name, number in self.number.items():
            for variable in range(3):
                spanned = any(variable in table and all(name[k] == 0 for k in range(3) if k not in table) for table in tables)
                parts = [k for k, parent in enumerate(self.trees[variable]) if parent == name[variable]]
                if spanned and parts:
                    found.append((number, [self.number[tuple(p if k == variable else name[k] for k in range(3))] for p in parts]))
        for total, parts in found:
            assert self.truths[total] == sum(self.truths[part] for part in parts)
        return found


def level(values, percent=10):
    """The upper level by FREQ(3,30) and P(percent), where one of them names the cell."""
    total = sum(values)
    largest = sorted(values, reverse=True)
    first = largest[0] if largest else 0
    rest = total - sum(largest[:2])
    found = []
    if 1 <= len(values) < 3:
        found.append(max(1, -(-30 * total // 100)))
    if 100 * rest < percent * first:
        found.append(max(1, -(-(percent * first - 100 * rest) // 100)))
    return max(found) if found else None


def component(survey, hidden, cell):
    links = {}
    for total, parts in survey.relations:
        inside = [one for one in [total] + parts if one in hidden]
        for one in inside:
            links.setdefault(one, []).extend(inside)
    found, todo = {cell}, [cell]
    while todo:
        for other in links.get(todo.pop(), []):
            if other not in found:
                found.add(other)
                todo.append(other)
    return sorted(found)


def as_lp(survey, hidden, cell, side, target):
    group = component(survey, hidden, cell)
    place = {one: k for k, one in enumerate(group)}

    def form(entries):
        return " ".join("%s %d x%d" % ("+" if number > 0 else "-", abs(number), column) for column, number in entries)

    objective = form([(2 * place[cell], side), (2 * place[cell] + 1, -side)])
    lines = ["Maximize", " objective: " + objective, "Subject To"]
    lines += [" c%d: x%d <= %d" % (k, 2 * k + 1, survey.truths[one]) for one, k in place.items()]
    for number, (total, parts) in enumerate(survey.relations):
        signs = [(place[one], sign) for one, sign in [(total, 1)] + [(part, -1) for part in parts] if one in place]
        if signs:
            entries = [entry for k, sign in signs for entry in ((2 * k, sign), (2 * k + 1, -sign))]
            lines.append(" r%d: %s = 0" % (number, form(entries)))
    lines += [" target: %s <= %d" % (objective, target), "End"]
    return "\n".join(lines) + "\n"


def used():
    spent = resource.getrusage(resource.RUSAGE_CHILDREN)
    return spent.ru_utime + spent.ru_stime


def timed(words, folder):
    before = used()
    done = subprocess.run(words, cwd=folder, capture_output=True, text=True, check=False)
    return used() - before, done


def solved(folder, text):
    """The greatest value of a problem, and the seconds."""
    with open(os.path.join(folder, "q.lp"), "w", encoding="ascii") as out:
        out.write(text)
    seconds, _ = timed(["esolver", "-L", "-O", "q.sol", "q.lp"], folder)
    with open(os.path.join(folder, "q.sol"), encoding="ascii") as source:
        return Fraction(re.search(r"Value = (\S+)", source.read()).group(1)), seconds


def end(text):
    return None if text == "open" else Fraction(text)


def compare(program, seed, count):
    survey = Survey(seed, count)
    differ = 0
    with tempfile.TemporaryDirectory() as folder:
        for name, text in demo.files(seed, count).items():
            with open(os.path.join(folder, name), "w", encoding="ascii") as file:
                file.write(text)
        ran, done = timed([program, "run", "demo.job"], folder)
        print("seed %d, %d records: %s" % (seed, count, done.stdout.strip()))
        with open(os.path.join(folder, "demo.cert"), encoding="ascii") as source:
            line = next(line for line in source if line.startswith("hidden "))
        hidden = set(map(int, line.split()[1:]))
        primary = [cell for cell in sorted(hidden) if survey.levels[cell] is not None]
        spent = 0.0
        for cell in primary:
            for side in (1, -1):
                wanted = survey.levels[cell] if side == 1 else min(survey.levels[cell], survey.truths[cell])
                best, seconds = solved(folder, as_lp(survey, hidden, cell, side, wanted))
                spent += seconds
                differ += best != wanted
        print("  run %.2f s, %d questions of its hidden set by QSopt_ex %.2f s" % (ran, 2 * len(primary), spent))
        found, done = timed([program, "intervals", "demo.job", "ranges.csv"], folder)
        spent = 0.0
        with open(os.path.join(folder, "ranges.csv"), encoding="ascii") as source:
            lines = source.read().split()[1:]
        for line in lines:
            number, low, high = line.split(",")
            cell = int(number)
            down, seconds = solved(folder, as_lp(survey, hidden, cell, -1, TARGET))
            up, more = solved(folder, as_lp(survey, hidden, cell, 1, TARGET))
            spent += seconds + more
            differ += survey.truths[cell] - down != end(low)
            differ += (None if up == TARGET else survey.truths[cell] + up) != end(high)
        print("  %s in %.2f s, its %d questions by QSopt_ex %.2f s; %d differ" % (done.stdout.strip(), found, 2 * len(lines), spent, differ))
    return differ == 0


def main():
    program = os.path.abspath(sys.argv[1])
    done = [compare(program, seed, count) for seed, count in ((1, 2000), (2, 1000))]
    return 0 if all(done) else 1


if __name__ == "__main__":
    sys.exit(main())
