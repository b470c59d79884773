#!/usr/bin/env python3
"""Writes linear problems of questions on the demo's tables: Region by Industry and Region by Size.

usage: questions.py FOLDER

The records are drawn as the demo's are. Of the cells with a total above 0 so many are hidden at random, and the
question asks how far a cell of their largest component may rise, with a target of 2^110. Each problem is written as
text for the walk (a line with the number of columns; the target and the objective; then a row a line, its bound and
then its columns with their numbers), and as an LP file.
"""

import os
import random
import sys

RECORDS = 6000
TARGET = 2**110
SIZES = [50, 100, 150, 200, 300, 400]


def draws(seed):
    state = seed

    def draw(most):
        nonlocal state
        state = (state * 6364136223846793005 + 1442695040888963407) % 2**64
        return (state // 2**33) % most

    return draw


def record(draw):
    region, letter, digit, size = draw(12), draw(4), draw(5), draw(4)
    value = 1 + draw(10000)
    if draw(20) == 0:
        value *= 50
    return region, letter, digit, size, value


def ancestors_of_region(region):
    return ["T", f"P{region // 4}", f"P{region // 4}R{region}"]


def tabulate():
    """The cells with their truths, each by its names in the three variables."""
    draw = draws(1)
    truths = {}
    for _ in range(RECORDS):
        region, letter, digit, size, value = record(draw)
        for r in ancestors_of_region(region):
            for cell in [
                (r, "T", "T"),
                (r, f"{letter}", "T"),
                (r, f"{letter}{digit}", "T"),
                (r, "T", f"S{size}"),
            ]:
                truths[cell] = truths.get(cell, 0) + value
    return truths


def relations(truths):
    """Total and parts, over all cells."""
    regions = ["T"] + [f"P{p}" for p in range(3)] + [f"P{r // 4}R{r}" for r in range(12)]
    industries = ["T"] + list("0123") + [f"{l}{d}" for l in range(4) for d in range(5)]
    sizes = [f"S{s}" for s in range(4)]
    splits = [("T", [f"P{p}" for p in range(3)])] + [
        (f"P{p}", [f"P{p}R{4 * p + k}" for k in range(4)]) for p in range(3)
    ]
    found = []
    for columns in [[(i, "T") for i in industries], [("T", s) for s in sizes]]:
        for i, s in columns:
            found += [((total, i, s), [(part, i, s) for part in parts]) for total, parts in splits]
    for r in regions:
        found.append(((r, "T", "T"), [(r, f"{l}", "T") for l in range(4)]))
        found += [((r, f"{l}", "T"), [(r, f"{l}{d}", "T") for d in range(5)]) for l in range(4)]
        found.append(((r, "T", "T"), [(r, "T", s) for s in sizes]))
    for total, parts in found:
        assert truths[total] == sum(truths[part] for part in parts)
    return found


def component(cells, forms, hidden):
    """The largest component of hidden cells that relations link."""
    links = {cell: [] for cell in hidden}
    for total, parts in forms:
        inside = [cell for cell in [total] + parts if cell in hidden]
        for cell in inside:
            links[cell] += inside
    left, largest = set(hidden), []
    while left:
        todo = [min(left, key=cells.index)]
        left.discard(todo[0])
        found = []
        while todo:
            cell = todo.pop()
            found.append(cell)
            for other in links[cell]:
                if other in left:
                    left.discard(other)
                    todo.append(other)
        largest = max(largest, found, key=len)
    return sorted(largest, key=cells.index)


def problem(truths, cells, forms, hidden, asked):
    """Columns, rows with their bounds, and the objective, in the order of a question's problem."""
    place = {cell: k for k, cell in enumerate(hidden)}
    rows = [([(2 * k + 1, 1)], truths[cell]) for k, cell in enumerate(hidden)]
    for total, parts in forms:
        signs = [(place[total], 1)] if total in place else []
        signs += [(place[part], -1) for part in parts if part in place]
        if signs:
            form = sorted(entry for k, sign in signs for entry in ((2 * k, sign), (2 * k + 1, -sign)))
            rows += [(form, 0), ([(column, -sign) for column, sign in form], 0)]
    k = place[asked]
    return 2 * len(hidden), rows, [(2 * k, 1), (2 * k + 1, -1)]


def as_text(columns, rows, objective, target):
    def words(entries):
        return " ".join(f"{column} {number}" for column, number in entries)

    lines = [str(columns), f"{target} {words(objective)}"]
    lines += [f"{bound} {words(entries)}" for entries, bound in rows]
    return "\n".join(lines) + "\n"


def as_lp(columns, rows, objective, target):
    def form(entries):
        return " ".join(f"{'+' if number > 0 else '-'} {abs(number)} x{column}" for column, number in entries)

    lines = ["Maximize", f" objective: {form(objective)}", "Subject To"]
    lines += [f" r{k}: {form(entries)} <= {bound}" for k, (entries, bound) in enumerate(rows)]
    lines += [f" target: {form(objective)} <= {target}", "End"]
    return "\n".join(lines) + "\n"


def write(name, made):
    with open(name + ".txt", "w", encoding="ascii") as out:
        out.write(as_text(*made))
    with open(name + ".lp", "w", encoding="ascii") as out:
        out.write(as_lp(*made))


def asked(cells, forms, size, count):
    """The largest component of so many cells that are hidden at random, and some cells of it to ask about."""
    chooser = random.Random(size)
    hidden = set(chooser.sample(cells, min(size, len(cells))))
    group = component(cells, forms, hidden)
    return group, chooser.sample(group, min(count, len(group)))


def main():
    folder = sys.argv[1]
    os.makedirs(folder, exist_ok=True)
    truths = tabulate()
    cells = list(truths)
    forms = relations(truths)
    for size in SIZES:
        group, chosen = asked(cells, forms, size, 1)
        made = problem(truths, cells, forms, group, chosen[0]) + (TARGET,)
        write(os.path.join(folder, f"q{len(group):03d}"), made)
        print(f"q{len(group):03d}: {len(group)} hidden cells, {made[0]} columns, {len(made[1]) + 1} rows")


if __name__ == "__main__":
    main()
