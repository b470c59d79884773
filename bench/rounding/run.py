#!/usr/bin/env python3
"""Times `argus run` on a two-way table of 100 by 100 codes that is rounded to base 5, and has the release checked.

usage: run.py PROGRAM

Its status is 1 where the run isn't released or the check doesn't accept it. It stands outside `rt ci`.
"""

import os
import resource
import subprocess
import sys
import tempfile

JOB = """<OPENMICRODATA> "m.asc"
<OPENMETADATA> "m.rda"
<SPECIFYTABLE> "A""B"|"V"
<SAFETYRULE> FREQ(3,30)
<READMICRODATA>
<NODES> 1
<SUPPRESS> RND(5)
<WRITETABLE> (1,"t.csv")
<CERTIFICATE> "t.cert"
"""
METADATA = "A 1 3\n<RECODEABLE>\nB 4 3\n<RECODEABLE>\nV 7 4\n<NUMERIC>\n"


def main():
    program = os.path.abspath(sys.argv[1])
    records = "".join("a%02db%02d%4d\n" % (a, b, (37 * a + 91 * b + a * b) % 9973) for a in range(100) for b in range(100))
    with tempfile.TemporaryDirectory() as folder:
        for name, text in (("r.job", JOB), ("m.rda", METADATA), ("m.asc", records)):
            with open(os.path.join(folder, name), "w", encoding="ascii") as file:
                file.write(text)
        said = []
        for verb in ("run", "check"):
            before = resource.getrusage(resource.RUSAGE_CHILDREN)
            done = subprocess.run([program, verb, "r.job"], cwd=folder, capture_output=True, text=True, check=False)
            after = resource.getrusage(resource.RUSAGE_CHILDREN)
            used = after.ru_utime + after.ru_stime - before.ru_utime - before.ru_stime
            said.append(done.returncode)
            print("%s: %s (%.2f s of processor time)" % (verb, done.stdout.strip(), used))
    return 1 if any(said) else 0


sys.exit(main())
