#!/usr/bin/env python3
"""Times `argus audit` on two-way tables that are rounded to base 5.

usage: run.py PROGRAM [CODES..]

A table of CODES by CODES codes (30 where none are named) has one record in each ninth inner cell, which is sensitive by `FREQ(2,30)`, and
three in each other one. It prints the reports of `run` and `audit`, their processor seconds and the size of OUT. Its status is 1 where a
release isn't made or isn't audited. It stands outside `rt ci`.
"""

import os
import resource
import subprocess
import sys
import tempfile

JOB = """<OPENMICRODATA> "m.asc"
<OPENMETADATA> "m.rda"
<SPECIFYTABLE> "A""B"|"V"
<SAFETYRULE> FREQ(2,30)
<SUPPRESS> RND(5)
<WRITETABLE> (1,"t.csv")
<CERTIFICATE> "t.cert"
"""
METADATA = "A 1 2\n<RECODEABLE>\nB 3 2\n<RECODEABLE>\nV 5 4\n<NUMERIC>\n"


def records(codes):
    lines = []
    for a in range(codes):
        for b in range(codes):
            count = 1 if (a * codes + b) % 9 == 0 else 3
            lines += ["%02d%02d%4d" % (a, b, (37 * a + 91 * b + a * b + 17 * k) % 97) for k in range(count)]
    return "\n".join(lines) + "\n"


def timed(program, folder, words):
    before = resource.getrusage(resource.RUSAGE_CHILDREN)
    done = subprocess.run([program, *words], cwd=folder, capture_output=True, text=True, check=False)
    after = resource.getrusage(resource.RUSAGE_CHILDREN)
    used = after.ru_utime + after.ru_stime - before.ru_utime - before.ru_stime
    print("  %s: %s (%.2f s of processor time)" % (words[0], done.stdout.strip(), used))
    return done.returncode == 0


def audited(program, codes):
    print("%d by %d codes" % (codes, codes))
    with tempfile.TemporaryDirectory() as folder:
        for name, text in (("r.job", JOB), ("m.rda", METADATA), ("m.asc", records(codes))):
            with open(os.path.join(folder, name), "w", encoding="ascii") as file:
                file.write(text)
        done = timed(program, folder, ["run", "r.job"]) and timed(program, folder, ["audit", "r.job", "out.csv"])
        if done:
            print("  OUT: %d bytes" % os.path.getsize(os.path.join(folder, "out.csv")))
        return done


def main():
    program = os.path.abspath(sys.argv[1])
    sizes = [int(word) for word in sys.argv[2:]] or [30]
    done = [audited(program, codes) for codes in sizes]
    return 0 if all(done) else 1


sys.exit(main())
