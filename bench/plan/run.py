#!/usr/bin/env python3
"""Times the plan of wide flat tables, beside reading and adding up the same records.

usage: run.py

A table of 240 by 240 codes has five or six records in most of its 57,600 inner cells, and two in about a tenth of them, which are
primary; or sixteen or seventeen in most; and one of 26 by 26 by 26 codes has five or six. A table of two variables with three levels of codes each, of
five and five and five codes and of four and five and five, has 19,500 cells in all, of which about a tenth are primary. Each is run twice: with a rule that
names these cells, and with one that names none. The first run plans, and then ends soon: as `undecided: size` in the flat tables of two variables, where
more than 4,000 hidden cells hang together, and else as `undecided: work`, since a question may take one step alone. The second reads, adds up and writes. It needs `python3` and the program built (`../../argus` does that).
"""

import os
import random
import resource
import subprocess
import tempfile

HERE = os.path.dirname(os.path.abspath(__file__))
PROGRAM = os.path.join(os.path.dirname(os.path.dirname(HERE)), "out", "argus")
METADATA = "{}V {} 4\n<NUMERIC>\n"
JOB = (
    '<OPENMICRODATA> "m.asc"\n<OPENMETADATA> "m.rda"\n<SPECIFYTABLE> {}|"V"\n<SAFETYRULE> FREQ({},0)\n<SUPPRESS> MOD()\n<STEPS> 1\n'
    '<WRITETABLE> (1,"t.csv")\n<CERTIFICATE> "t.cert"\n'
)


def leaves(levels):
    """All codes of a variable with so many digits at each of its levels; a level has the same digits below each code above."""
    codes = [""]
    for width, digits in levels:
        codes = [f"{code}{digit:0{width}d}" for code in codes for digit in range(digits)]
    return codes


def places(variables):
    """All places of a table with these codes for each variable."""
    if not variables:
        yield ""
        return
    for place in places(variables[:-1]):
        for code in variables[-1]:
            yield f"{place}{code}"


def described(k, levels):
    """The lines of the metadata for variable k, whose codes are three bytes wide."""
    lines = f"{'ABC'[k]} {3 * k + 1} 3\n<RECODEABLE>\n"
    if len(levels) > 1:
        widths = " ".join(str(width) for width, _ in levels)
        lines += f"<HIERARCHICAL>\n<HIERLEVELS> {widths}\n"
    return lines


def write(folder, variables, each, rate):
    """Writes the records and metadata of a table, and says how many records and primary inner cells it has."""
    numbers = random.Random(1)
    records = primary = 0
    with open(os.path.join(folder, "m.asc"), "w", encoding="ascii") as out:
        for place in places([leaves(levels) for levels in variables]):
            count = 2 if numbers.random() < rate else each + numbers.randint(0, 1)
            records += count
            primary += count == 2
            for _ in range(count):
                out.write(f"{place}{numbers.randint(1, 1000):4d}\n")
    lines = "".join(described(k, levels) for k, levels in enumerate(variables))
    with open(os.path.join(folder, "m.rda"), "w", encoding="ascii") as out:
        out.write(METADATA.format(lines, 3 * len(variables) + 1))
    return records, primary


def timed(folder, dimensions, least):
    """What a run says where cells with fewer records than `least` are primary, and its processor time."""
    spanning = "".join(f'"{"ABC"[k]}"' for k in range(dimensions))
    with open(os.path.join(folder, "r.job"), "w", encoding="ascii") as out:
        out.write(JOB.format(spanning, least))
    before = resource.getrusage(resource.RUSAGE_CHILDREN)
    done = subprocess.run([PROGRAM, "run", "r.job"], cwd=folder, capture_output=True, check=False)
    after = resource.getrusage(resource.RUSAGE_CHILDREN)
    spent = after.ru_utime + after.ru_stime - before.ru_utime - before.ru_stime
    return done.stdout.decode().splitlines()[0], spent


def main():
    flat, small = [(3, 240)], [(3, 26)]
    wide, deep = [(1, 5), (1, 5), (1, 5)], [(1, 4), (1, 5), (1, 5)]
    tables = (
        ("240 by 240 codes", [flat, flat], 5, 0.1),
        ("240 by 240 codes", [flat, flat], 16, 0.1),
        ("26 by 26 by 26 codes", [small, small, small], 5, 0.1),
        ("three levels by three, 156 by 125 codes", [wide, deep], 5, 0.16),
        ("three levels by three, 156 by 125 codes", [wide, deep], 50, 0.16),
    )
    for name, variables, each, rate in tables:
        with tempfile.TemporaryDirectory() as folder:
            records, primary = write(folder, variables, each, rate)
            print(f"{name}: {records} records, {primary} primary cells")
            for least in (3, 1):
                said, spent = timed(folder, len(variables), least)
                print(f"  {said}: {spent:.2f} s")


main()
