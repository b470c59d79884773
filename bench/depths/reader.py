"""What a reader can work out who adds up across all tables of a release: the exact ends of each hidden cell.

The cells are known by their codes alone, so a cell that two tables have is one, however the job says so; and where any table
shows it, it is known. The sums are those of all tables. Ends are found by the simplex method in whole numbers, without rounding.
"""

from fractions import Fraction


class Simplex:
    """All x >= 0 with these equations, each given as its numbers by column and what they make up. There must be such x."""

    def __init__(self, equations, columns):
        self.columns, self.den = columns, 1
        self.rows = [self._row(*equation) for equation in equations]
        self.basis = [None] * len(self.rows)
        self._begin()

    def _row(self, numbers, right):
        sign = -1 if right < 0 else 1
        row = [0] * self.columns + [sign * right]
        for column, number in numbers.items():
            row[column] = sign * number
        return row

    def _pivot(self, at, column, further=()):
        """Takes the column into the basis in place of that of a row; all numbers stay whole, over one denominator."""
        if self.rows[at][column] < 0:
            self.rows[at] = [-number for number in self.rows[at]]
        own = self.rows[at]
        pivot = own[column]
        for row in [*self.rows, *further]:
            if row is not own:
                here = row[column]
                row[:] = [(number * pivot - here * other) // self.den for number, other in zip(row, own)]
        self.basis[at], self.den = column, pivot

    def _leaving(self, column):
        """The row that limits the column first, by Bland's rule; None where none does."""
        best = None
        for at, row in enumerate(self.rows):
            if row[column] > 0:
                key = Fraction(row[-1], row[column]), -1 if self.basis[at] is None else self.basis[at]
                if best is None or key < best[0]:
                    best = key, at
        return None if best is None else best[1]

    def _climb(self, goal):
        """Raises the goal as far as it goes; False where it has no end."""
        while True:
            column = next((column for column in range(self.columns) if goal[column] > 0), None)
            if column is None:
                return True
            at = self._leaving(column)
            if at is None:
                return False
            self._pivot(at, column, (goal,))

    def _begin(self):
        """Finds a first basis: rows without one count what is missing in them, and go where nothing more is in them."""
        goal = [sum(row[column] for row in self.rows) for column in range(self.columns + 1)]
        if not self._climb(goal) or goal[-1] != 0:
            raise ValueError("nothing fits these equations")
        for at in reversed(range(len(self.rows))):
            if self.basis[at] is None:
                column = next((column for column in range(self.columns) if self.rows[at][column]), None)
                if column is None:
                    del self.rows[at], self.basis[at]
                else:
                    self._pivot(at, column)

    def most(self, column, sign):
        """The greatest value of sign times the column; None where there is none."""
        goal = [0] * (self.columns + 1)
        goal[column] = sign * self.den
        if column in self.basis:
            row = self.rows[self.basis.index(column)]
            goal = [number - sign * other for number, other in zip(goal, row)]
        if not self._climb(goal):
            return None
        return Fraction(-goal[-1], self.den)


def sums(places):
    """The sums within a table, as a cell and its parts: for each variable, the places that end one level lower."""
    found, names = [], set(places)
    for name in names:
        for at, code in enumerate(name):
            parts = [other for other in names if is_right_below(other, name, at, code)]
            if parts:
                found.append((name, parts))
    return found


def is_right_below(other, name, at, code):
    """Whether another name's code of one variable is right below, and all its other codes are the same."""
    return other[at][:-1] == code and len(other[at]) == len(code) + 1 and other[:at] + other[at + 1 :] == name[:at] + name[at + 1 :]


def ends(tables):
    """By cell that no table shows, its least value and its greatest one, or None for the latter. A table is by name of a cell
    what it shows, None for a hidden one."""
    known = {name: value for table in tables for name, value in table.items() if value is not None}
    hidden = sorted({name for table in tables for name in table} - set(known))
    column = {name: place for place, name in enumerate(hidden)}
    equations = []
    for total, parts in {(total, tuple(sorted(parts))) for table in tables for total, parts in sums(table)}:
        numbers, right = {}, 0
        for name, sign in [(total, 1)] + [(part, -1) for part in parts]:
            if name in column:
                numbers[column[name]] = sign
            else:
                right -= sign * known[name]
        if numbers:
            equations.append((numbers, right))
        elif right:
            raise ValueError("a sum of shown cells doesn't hold")
    system = Simplex(equations, len(hidden))
    found = {}
    for name, place in column.items():
        least = system.most(place, -1)
        found[name] = -least, system.most(place, 1)
    return found
