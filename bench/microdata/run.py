#!/usr/bin/env python3
"""Times a whole run of argus over a million records beside `wc -l` and `sort | uniq -c`.

Usage: run.py [RECORDS [PROGRAM]]

The records have 24 bytes and a line feed: a code of four digits and a response of twenty bytes. The
program is ../../out/argus where none is named; build it first by calling ../../argus with no word.
Each command runs three times, one after another, and the shortest time counts.
"""

import os
import subprocess
import sys
import tempfile
import time

CODES = 1000
RUNS = 3

METADATA = "A 1 4\n<RECODEABLE>\nV 5 20\n<NUMERIC>\n"

JOB = """<OPENMICRODATA> "m.asc"
<OPENMETADATA> "m.rda"
<SPECIFYTABLE> "A"|"V"
<SAFETYRULE> FREQ(3,30)
<READMICRODATA>
<SUPPRESS> MOD()
<WRITETABLE> (1,"t.csv")
<CERTIFICATE> "t.cert"
"""


def records(count):
    """The lines of so many records, always the same: neither codes nor values are in order."""
    state = 1
    for _ in range(count):
        state = (state * 6364136223846793005 + 1442695040888963407) % 2**64
        code = (state >> 40) % CODES
        value = (state >> 20) % 100000
        yield f"{code:04}{value:20}\n"


def write_inputs(folder, count):
    with open(os.path.join(folder, "m.asc"), "w", encoding="ascii") as out:
        out.writelines(records(count))
    for name, text in (("m.rda", METADATA), ("r.job", JOB)):
        with open(os.path.join(folder, name), "w", encoding="ascii") as out:
            out.write(text)


def shortest(folder, command):
    """The shortest of the runs in seconds, and what the last one wrote."""
    times = []
    for _ in range(RUNS):
        start = time.perf_counter()
        done = subprocess.run(
            command, cwd=folder, shell=True, check=True, stdout=subprocess.PIPE,
            env={**os.environ, "LC_ALL": "C"},
        )
        times.append(time.perf_counter() - start)
    return min(times), done.stdout.decode("ascii")


def total_of_table(folder):
    with open(os.path.join(folder, "t.csv"), encoding="ascii") as table:
        return int(table.read().split("\n")[1].split(",")[1])


def total_of_records(folder):
    with open(os.path.join(folder, "m.asc"), encoding="ascii") as lines:
        return sum(int(line[4:24]) for line in lines)


def main():
    count = int(sys.argv[1]) if len(sys.argv) > 1 else 1000000
    here = os.path.dirname(os.path.abspath(__file__))
    argus = sys.argv[2] if len(sys.argv) > 2 else os.path.join(here, "..", "..", "out", "argus")
    argus = os.path.abspath(argus)
    if not os.access(argus, os.X_OK):
        sys.exit("run.py: build the program first, by ../../argus with no word")
    with tempfile.TemporaryDirectory() as folder:
        write_inputs(folder, count)
        try:
            run, said = shortest(folder, f"'{argus}' run r.job")
        except subprocess.CalledProcessError as refused:
            sys.exit(refused.stdout.decode("ascii").rstrip("\n"))
        counted, _ = shortest(folder, "wc -l m.asc")
        sorted_, groups = shortest(folder, "cut -c1-4 m.asc | sort | uniq -c")
        print(said, end="")
        if total_of_table(folder) != total_of_records(folder):
            sys.exit("run.py: the table's total is not the sum of the records")
        if f" {len(groups.splitlines()) + 1} cells" not in said:
            sys.exit("run.py: the cells are not the codes and the total")
        print(f"records {count}, bytes {25 * count}")
        print(f"argus run                    {run:8.3f} s")
        print(f"wc -l                        {counted:8.3f} s  ratio {run / counted:8.1f}")
        print(f"cut | sort | uniq -c         {sorted_:8.3f} s  ratio {run / sorted_:8.1f}")


if __name__ == "__main__":
    main()
