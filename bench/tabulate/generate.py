#!/usr/bin/env python3
"""Writes the inputs of the benchmark into a folder: records, metadata, a hierarchy file and a job.

usage: generate.py FOLDER [RECORDS]

A record has 14 bytes and its line's end: a region (three bytes, twelve regions in three parts), an industry
(a letter and a digit), a size (S and a digit) and a value of at most seven digits with blanks before it. The same
call writes the same bytes each time.
"""

import os
import sys

METADATA = """Region 1 3
<RECODEABLE>
<HIERARCHICAL>
<HIERCODELIST> "region.hrc"
<HIERLEADSTRING> @
Industry 4 2
<RECODEABLE>
<HIERARCHICAL>
<HIERLEVELS> 1 1
Size 6 2
<RECODEABLE>
Value 8 7
<NUMERIC>
"""

# With this rule no cell is sensitive, so that the run ends in a release.
JOB = """<OPENMICRODATA> "m.asc"
<OPENMETADATA> "m.rda"
<SPECIFYTABLE> "Region""Industry"|"Value"
<SPECIFYTABLE> "Region""Size"|"Value"
<SAFETYRULE> FREQ(1,30)
<READMICRODATA>
<SUPPRESS> MOD()
<WRITETABLE> (1,"t.csv")
<WRITETABLE> (2,"u.csv")
<CERTIFICATE> "t.cert"
"""


def hierarchy():
    lines = []
    for part in range(3):
        lines.append(f"P{part + 1}\n")
        for region in range(4):
            lines.append(f"@R{4 * part + region + 1:02}\n")
    return "".join(lines)


def records(count):
    # Knuth's linear congruential generator; the low bits are weak and are left out.
    state = 1
    mask = 2**64 - 1
    for _ in range(count):
        state = (state * 6364136223846793005 + 1442695040888963407) & mask
        draw = state >> 20
        region = draw % 12
        industry = draw // 12 % 20
        size = draw // 240 % 4
        value = draw // 960 % 1000000
        yield f"R{region + 1:02}{'ABCD'[industry // 5]}{industry % 5 + 1}S{size + 1}{value:7}\n"


def main():
    if len(sys.argv) not in (2, 3):
        sys.exit(__doc__)
    folder = sys.argv[1]
    count = int(sys.argv[2]) if len(sys.argv) == 3 else 1000000
    os.makedirs(folder, exist_ok=True)
    for name, text in (("m.rda", METADATA), ("region.hrc", hierarchy()), ("r.job", JOB)):
        with open(os.path.join(folder, name), "w", newline="") as file:
            file.write(text)
    with open(os.path.join(folder, "m.asc"), "w", newline="") as file:
        file.writelines(records(count))


if __name__ == "__main__":
    main()
