#!/usr/bin/env python3
"""Makes small jobs with levels and the line CONTRIBUTORS, and does what `explain` says of those that can't be protected against a firm.

usage: made.py PROGRAM [COUNT] [SEED]

Each job has two variables, one with a hierarchy file and one with levels by digits, some firms that are twenty times as large as the others,
one of five sets of rules, and at times one or two p lines. Where argus can't protect a cell, the printed `pl` lines are saved and the job is
run again, up to four times; a release is checked. It prints how many were released at once, after one round and after more, and how many had
no lines to save. Its status is 1 where a release isn't accepted. It stands outside `.ci/run`.
"""

import collections
import os
import random
import subprocess
import sys
import tempfile

HERE = os.path.dirname(os.path.abspath(__file__))
EXPLAIN = (os.path.join(HERE, "..", "..", "argus"), "explain")
RULES = ("FREQ(3,30)|P(20)", "FREQ(3,50)", "NK(1,60)|FREQ(2,30)", "P(50)", "FREQ(4,40)|NK(2,80)")
SHOWN = ("Total,Total", "North,Total", "Total,1", "c,Total", "Total,11", "a,Total")


def write(name, text):
    with open(name, "w", encoding="utf-8") as file:
        file.write(text)


def make(draw):
    """The files of a job in the current folder; gives its a priori files, each with its line of the job and its lines."""
    decimals = draw.choice((0, 0, 1))
    write("m.rda", 'Region 1 1\n<HIERARCHICAL>\n<HIERCODELIST> "m.hrc"\nBranch 2 2\n<HIERARCHICAL>\n<HIERLEVELS> 1 1\nTurnover 4 7\n<NUMERIC>\n<DECIMALS> %d\n' % decimals)
    write("m.hrc", "North\n@a\n@b\nc\n")
    rows = []
    for region in "abc":
        for branch in ("11", "12"):
            for k in range(draw.choice((0, 1, 1, 2, 3, 5, 8))):
                value = draw.randrange(10, 400) * (20 if k == 0 and draw.random() < 0.4 else 1)
                rows.append("%s%s%7s\n" % (region, branch, "%d.%d" % divmod(value, 10) if decimals else value))
    write("m.asc", "".join(rows) or "a11      5\n")
    cells = draw.sample(SHOWN, draw.choice((0, 0, 1, 2)))
    return {"p.hst": ['<APRIORI> "p.hst",1,","', [it + ",p" for it in cells]]} if cells else {}


def put(rules, priors):
    lines = ['<OPENMICRODATA> "m.asc"', '<OPENMETADATA> "m.rda"', '<SPECIFYTABLE> "Region""Branch"|"Turnover"', "<SAFETYRULE> " + rules, "<SUPPRESS> MOD()",
             '<WRITETABLE> (1,"m.csv")', '<CERTIFICATE> "m.cert"', '<CONTRIBUTORS> "m.extra"'] + [line for line, _ in priors.values()]
    write("m.job", "".join(it + "\n" for it in lines))
    for name, (_, rows) in priors.items():
        write(name, "".join(it + "\n" for it in rows))


def take(said, priors):
    """Saves the printed lines where they say; gives how many there are."""
    name, count = "", 0
    for line in said.split("\n"):
        if line.startswith("Save as "):
            name = line.split(" ")[2].rstrip(",")
            priors[name] = [line.split("job: ")[1], []]
        elif line.startswith("Add to "):
            name = line[7:].rstrip(":")
        elif line and not line.startswith("  "):
            cell = line.split(",pl,")[0] + ",pl,"
            priors[name][1] = [it for it in priors[name][1] if not it.startswith(cell)] + [line]
            count += 1
    return count


def try_job(program, draw):
    """How a job went: `released after N`, `no lines`, or what argus says."""
    priors, rules = make(draw), draw.choice(RULES)
    for turn in range(5):
        put(rules, priors)
        try:
            done = subprocess.run([program, "run", "m.job"], stdout=subprocess.PIPE, text=True, check=False, timeout=60)
        except subprocess.TimeoutExpired:
            return "too slow"
        if done.returncode == 0:
            checked = subprocess.run([program, "check", "m.job"], stdout=subprocess.PIPE, text=True, check=False).stdout
            return "released after %d" % turn if checked == "accepted\n" else "not accepted"
        if done.returncode != 3:
            return done.stdout.split(":")[0]
        said = subprocess.run([*EXPLAIN, "run", "m.job"], input=done.stdout, stdout=subprocess.PIPE, text=True, check=False).stdout
        if not take(said, priors):
            return "no lines, against a firm" if " from row " in done.stdout else "no lines, against readers"
    return "not released"


def main():
    program = os.path.abspath(sys.argv[1])
    count, seed = (int(it) for it in (sys.argv[2:4] + ["60", "1"][len(sys.argv[2:4]):]))
    found = collections.Counter()
    for number in range(count):
        with tempfile.TemporaryDirectory() as folder:
            os.chdir(folder)
            found[try_job(program, random.Random(seed * 100000 + number))] += 1
            os.chdir(HERE)
    print("made: %d jobs: %s" % (count, ", ".join("%d %s" % (found[it], it) for it in sorted(found))))
    return 1 if found["not accepted"] else 0


sys.exit(main())
