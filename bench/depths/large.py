"""Makes the large job: four linked tables of a business survey over one industry tree, one tree of regions, and sizes.

The industry tree has the shape of NACE Rev. 2: 21 sections, 88 divisions, 272 groups, 615 classes. The regions have that of the
German districts: 16, 38, 401. Where each code lies is drawn; so are the 300,000 records.
"""

import math
import os
import random

INDUSTRY = (21, 88, 272, 615)
REGION = (16, 38, 401)
RECORDS = 300000
SIZES = "12345"
# Each table: its variables, and the level down to which it takes them, 0 for all.
TABLES = (
    ("classes by size", (("Industry", 0), ("Size", 0))),
    ("groups by region", (("Industry", 3), ("Region", 1))),
    ("divisions by part of a region", (("Industry", 2), ("Region", 2))),
    ("sections by district", (("Industry", 1), ("Region", 0))),
)
LETTERS = "ABCDEFGHIJKLMNOPQRSTUVWXYZ"


def shares(draw, parts, total):
    """So many whole numbers from 1 that make up the total."""
    ends = sorted(draw.sample(range(1, total), parts - 1))
    return [end - start for start, end in zip([0, *ends], [*ends, total])]


def spelled(level, number):
    """A code's own part at its level: a letter, and then as many digits as the level has."""
    return LETTERS[number] if level == 0 else f"{number:02d}"


def leaves(draw, counts):
    """The codes of the last level of a tree with so many codes at each level, two bytes a level but for the first."""
    codes = [spelled(0, number) for number in range(counts[0])]
    for level, count in enumerate(counts[1:], 1):
        below = shares(draw, len(codes), count)
        codes = [code + spelled(level, number) for code, more in zip(codes, below) for number in range(more)]
    return codes


def weights(draw, count, power):
    """Weights of codes: few are frequent, and which ones is drawn."""
    found = [1.0 / (place + 20) ** power for place in range(count)]
    draw.shuffle(found)
    return found


def records(draw, industry_tree, region_tree, count):
    """The lines of the microdata."""
    industries, regions = leaves(draw, industry_tree), leaves(draw, region_tree)
    columns = (
        draw.choices(industries, weights(draw, len(industries), 0.8), k=count),
        draw.choices(regions, weights(draw, len(regions), 0.8), k=count),
        draw.choices(SIZES, (50, 25, 13, 8, 4), k=count),
    )
    for industry, region, size in zip(*columns):
        value = int(min(9e8, math.exp(draw.gauss(4 + 0.5 * int(size), 1.0)))) + 1
        yield f"{industry}{region}{size}{value:9d}\n"


METADATA = """Industry 1 7
<HIERARCHICAL>
<HIERLEVELS> 1 2 2 2
Region 8 5
<HIERARCHICAL>
<HIERLEVELS> 1 2 2
Size 13 1
<RECODEABLE>
Turnover 14 9
<NUMERIC>
"""


def job_lines():
    """The lines of the job."""
    yield '<OPENMICRODATA> "m.asc"\n<OPENMETADATA> "m.rda"\n'
    for _, spans in TABLES:
        yield "<SPECIFYTABLE> " + "".join(f'"{name}"' for name, _ in spans) + '|"Turnover"\n'
    for number, (_, spans) in enumerate(TABLES, 1):
        for name, level in spans:
            yield f'<DEPTH> ({number},"{name}",{level})\n' if level else ""
    yield "<SAFETYRULE> FREQ(3,30)|P(10)\n<READMICRODATA>\n<SUPPRESS> MOD()\n<COST> FREQ\n<STEPS> 1000000\n"
    for number in range(1, len(TABLES) + 1):
        yield f'<WRITETABLE> ({number},"t{number}.csv")\n'
    yield '<CERTIFICATE> "t.cert"\n'


def write(folder, few=False):
    """Writes the files of the job into a folder; with a third of the codes and a twentieth of the records, if few are asked for."""
    trees = [[count // 3 if few else count for count in tree] for tree in (INDUSTRY, REGION)]
    with open(os.path.join(folder, "m.asc"), "w", encoding="ascii") as out:
        out.writelines(records(random.Random(1), *trees, RECORDS // 20 if few else RECORDS))
    with open(os.path.join(folder, "m.rda"), "w", encoding="ascii") as out:
        out.write(METADATA)
    with open(os.path.join(folder, "r.job"), "w", encoding="ascii") as out:
        out.writelines(job_lines())
