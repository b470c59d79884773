"""Jobs as offices have them: firms with lognormal turnover in uneven regions, industries and size classes.

A few codes of a variable hold most of its firms, by weights that fall with the rank of the code (Zipf's law, exponent 0.8), and a few
firms most of the turnover. The same seed makes the same files.
"""

import math
import os
import random
import sys
from itertools import product

HERE = os.path.dirname(os.path.abspath(__file__))
sys.path.append(os.path.join(HERE, "..", "protect"))

import peers  # noqa: E402

PERCENT = 15
# Per job, for each variable how many codes each level has below one code, and how many records there are.
JOBS = {
    "three-i": ([[6], [7], [5]], 3000),
    "three-m": ([[8], [10], [6]], 8000),
    "hier-m": ([[4, 4, 3], [4, 5]], 5000),
    "flat20": ([[20], [20]], 2500),
    "flat40": ([[40], [40]], 12000),
    "hier-l": ([[5, 5, 4], [5, 6, 2]], 30000),
    "three-l": ([[4, 4], [4, 5], [6]], 20000),
}
NAMES = "ABC"
JOB = (
    '<OPENMICRODATA> "m.asc"\n<OPENMETADATA> "m.rda"\n<SPECIFYTABLE> {}|"V"\n<SAFETYRULE> P({})|FREQ(3,30)\n<SUPPRESS> MOD()\n'
    '<COST> FREQ\n<STEPS> 1000000\n<WRITETABLE> (1,"t.csv")\n<CERTIFICATE> "t.cert"\n'
)


def widths(levels):
    """How many digits the codes of each level have."""
    return [len(str(count)) for count in levels]


def codes(levels):
    """All codes of the lowest level."""
    found = [""]
    for count, width in zip(levels, widths(levels)):
        found = [code + str(k).zfill(width) for code in found for k in range(1, count + 1)]
    return found


def weights(numbers, count):
    """How often each code comes."""
    found = [1.0 / (rank + 1) ** 0.8 for rank in range(count)]
    numbers.shuffle(found)
    return found


def records(name, seed):
    """The codes of each record, and its turnover."""
    variables, count = JOBS[name]
    numbers = random.Random(seed)
    lists = [codes(levels) for levels in variables]
    shares = [weights(numbers, len(them)) for them in lists]
    columns = [numbers.choices(them, share, k=count) for them, share in zip(lists, shares)]
    return [(place, int(min(9e8, math.exp(numbers.gauss(6, 1.8)))) + 1) for place in zip(*columns)]


def metadata(variables):
    """The metadata of records whose variables have so many characters for each level, with a turnover behind them."""
    lines, first = "", 1
    for letter, digits in zip(NAMES, variables):
        lines += f"{letter} {first} {sum(digits)}\n<RECODEABLE>\n"
        if len(digits) > 1:
            lines += "<HIERARCHICAL>\n<HIERLEVELS> " + " ".join(map(str, digits)) + "\n"
        first += sum(digits)
    return lines + f"V {first} 9\n<NUMERIC>\n"


def write(folder, name, seed):
    """Writes the files of a made job, and gives the cells of its table."""
    return write_job(folder, [widths(levels) for levels in JOBS[name][0]], records(name, seed))


def write_job(folder, variables, firms):
    """Writes the files of a job, and gives the cells of its table.

    Of each variable it is said how many characters the codes of each level have; a record is its codes and a whole number.
    """
    spanned = "".join(f'"{letter}"' for letter in NAMES[: len(variables)])
    for file, text in (
        ("r.job", JOB.format(spanned, PERCENT)),
        ("m.rda", metadata(variables)),
        ("m.asc", "".join("".join(place) + f"{value:9d}\n" for place, value in firms)),
    ):
        with open(os.path.join(folder, file), "w", encoding="ascii") as out:
            out.write(text)
    return Survey(variables, firms)


class Tree:
    """The codes of a variable that occur, in preorder behind the total, each with the place of its parent."""

    def __init__(self, digits, used):
        ends = [sum(digits[:k]) for k in range(len(digits) + 1)]
        nodes = sorted({code[:end] for code in used for end in ends})
        self.places = {node: place for place, node in enumerate(nodes)}
        self.ups = {code: [self.places[code[:end]] for end in ends] for code in used}
        self.below = {place: [] for place in range(len(nodes))}
        for node, place in self.places.items():
            if node:
                parent = max(end for end in ends if end < len(node))
                self.below[self.places[node[:parent]]].append(place)


class Survey:
    """The cells of a job's table by their numbers: truths, upper levels of the primary ones, and relations."""

    def __init__(self, variables, firms):
        trees = [Tree(digits, {place[k] for place, _ in firms}) for k, digits in enumerate(variables)]
        sizes = [len(tree.places) for tree in trees]
        self.number = {place: k for k, place in enumerate(product(*map(range, sizes)))}
        values = [[] for _ in self.number]
        for place, value in firms:
            for cell in product(*(tree.ups[code] for tree, code in zip(trees, place))):
                values[self.number[cell]].append(value)
        self.truths = [sum(them) for them in values]
        self.levels = [peers.level(them, PERCENT) for them in values]
        self.relations = [
            (number, [self.number[cell[:k] + (part,) + cell[k + 1 :]] for part in tree.below[cell[k]]])
            for cell, number in self.number.items()
            for k, tree in enumerate(trees)
            if tree.below[cell[k]]
        ]
        assert all(self.truths[total] == sum(self.truths[part] for part in parts) for total, parts in self.relations)
