#!/usr/bin/env python3
"""The walk of a linear problem, calculated by fractions, apart from the crate `tableau`.

usage: exact.py

It prints, for each small problem below, the tables of its walk step by step: the values of the columns and the
objective's numbers at the slacks, in whole numbers over the den. The dictionary of each basis is solved anew from the
problem's rows by Gaussian elimination over fractions, so no exchange is ever made: that a step's tables are those of
the exchanges is what the tests of `tableau` compare.
"""

from fractions import Fraction
from math import gcd


class Problem:
    """Raise the objective over columns from 0, each row at most its bound, up to the target."""

    def __init__(self, columns, rows, objective, target):
        self.columns = columns
        self.objective = dict(objective)
        self.rows = [(dict(entries), bound) for entries, bound in rows] + [(dict(objective), target)]
        self.target = target

    def names(self):
        return range(self.columns + len(self.rows))

    def coefficient(self, row, name):
        """What stands in a row at a column or slack, where entries plus slack equal the bound."""
        if name < self.columns:
            return self.rows[row][0].get(name, 0)
        return 1 if name - self.columns == row else 0


def dictionary(problem, members):
    """Each member, and the objective, as its value less numbers times the other columns and slacks."""
    others = [name for name in problem.names() if name not in members]
    height = len(problem.rows)
    lines = [
        [Fraction(problem.coefficient(row, name)) for name in members]
        + [Fraction(problem.coefficient(row, name)) for name in others]
        + [Fraction(problem.rows[row][1])]
        for row in range(height)
    ]
    for place in range(height):
        pivot = next(row for row in range(place, height) if lines[row][place] != 0)
        lines[place], lines[pivot] = lines[pivot], lines[place]
        lines[place] = [number / lines[place][place] for number in lines[place]]
        for row in range(height):
            if row != place and lines[row][place] != 0:
                times = lines[row][place]
                lines[row] = [a - times * b for a, b in zip(lines[row], lines[place])]
    rows = [line[height:] for line in lines]
    top = [-Fraction(problem.objective.get(name, 0)) for name in others] + [Fraction(0)]
    for place, name in enumerate(members):
        weight = Fraction(problem.objective.get(name, 0))
        top = [a + weight * b for a, b in zip(top, rows[place])]
    return others, rows, top


def listed(problem, others, row, member):
    """A row's value and then its number at each slack; at its own member 1, at any other member 0."""
    numbers = [row[-1]]
    for name in range(problem.columns, problem.columns + len(problem.rows)):
        if name in others:
            numbers.append(row[others.index(name)])
        else:
            numbers.append(Fraction(1 if name == member else 0))
    return numbers


def entering(others, top):
    below = [(top[place], name) for place, name in enumerate(others) if top[place] < 0]
    return min(below)[1] if below else None


def leaving(problem, members, others, rows, name):
    """The place of the member that leaves."""
    place = others.index(name)
    found = [
        ([number / row[place] for number in listed(problem, others, row, member)], k)
        for k, (member, row) in enumerate(zip(members, rows))
        if row[place] > 0
    ]
    return min(found)[1]


def common_den(problem, rows, top):
    den = 1
    for row in rows + [top]:
        for number in row:
            den = den * number.denominator // gcd(den, number.denominator)
    return den


def walk(problem, most=1000):
    """For each table of the walk: its den, values, slacks, and what comes next."""
    members = list(range(problem.columns, problem.columns + len(problem.rows)))
    tables = []
    for _ in range(most):
        others, rows, top = dictionary(problem, members)
        den = common_den(problem, rows, top)
        value_of = dict(zip(members, (row[-1] for row in rows)))
        values = [int(value_of.get(name, 0) * den) for name in range(problem.columns)]
        slacks = [
            int(top[others.index(name)] * den) if name in others else 0
            for name in range(problem.columns, problem.columns + len(problem.rows))
        ]
        name = entering(others, top)
        if top[-1] == problem.target:
            tables.append((den, values, slacks, "reached"))
            return tables
        if name is None:
            tables.append((den, values, slacks, "blocked"))
            return tables
        k = leaving(problem, members, others, rows, name)
        tables.append((den, values, slacks, f"{name} in, {members[k]} out"))
        members[k] = name
    return tables


def thirteen_records():
    """Cells 4, 5, 7, 8 of the two-way table hidden; cell 4 above, target 6. Columns: up and down of each."""
    downs = [(1, 20), (3, 50), (5, 30), (7, 40)]
    rows = [([(column, 1)], bound) for column, bound in downs]
    for parts in [(0, 4), (2, 6), (0, 2), (4, 6)]:
        form = [entry for up in parts for entry in ((up, -1), (up + 1, 1))]
        rows += [(form, 0), ([(column, -number) for column, number in form], 0)]
    return Problem(8, rows, [(0, 1), (1, -1)], 6)


def degenerate():
    """Three rows with the bound 0, in which a wrong tie of what leaves ends at other slacks."""
    return Problem(2, [([(0, 2), (1, 1)], 0), ([(1, 2)], 0), ([(0, -2), (1, 1)], 0)], [(0, 3), (1, 3)], 3)


PROBLEMS = {
    "thirteen records": thirteen_records(),
    "degenerate": degenerate(),
}


def main():
    for name, problem in PROBLEMS.items():
        print(name)
        for den, values, slacks, follows in walk(problem):
            print(f"  den {den} values {values} slacks {slacks}: {follows}")


if __name__ == "__main__":
    main()
