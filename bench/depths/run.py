#!/usr/bin/env python3
"""Tries tables down to a level: that no reader adds up across them, that depths beyond a tree say nothing, and a large job.

usage: run.py PROGRAM [--few]

1. Small jobs of two or three linked tables over one tree at several depths. All that a reader can work out who adds up across
   the tables is solved exactly (reader.py): where the job says it by `<DEPTH>`, no hidden sensitive cell may be placed within
   its protection levels. The same tables by variables that are cut apart, so that argus knows nothing of their sums, must give
   some away; else the jobs try nothing.
2. Jobs that have to be the same, byte for byte in all that is said and put: without depths and with such as reach the tree's
   last level or beyond it; all tables at a level, and the field cut to this level. There the parents that a step of the
   certificate names have the numbers of the whole tree, and are brought to those of the cut one before.
3. The job of large.py: it is released, and `check` and `outside/check` accept it. The times are printed.

With --few there are fewer small jobs, and the large one has a third of the codes and a twentieth of the records. The status is 1
where anything is otherwise. It stands outside `rt ci`, and takes a minute with --few and some five without.
"""

import os
import re
import resource
import subprocess
import sys
import tempfile
import time

import large
import reader
import small

HERE = os.path.dirname(os.path.realpath(__file__))
OUTSIDE = os.path.join(HERE, "..", "..", "outside", "check")
SECONDS = 3600


def called(words, folder):
    """The status of a call, what it says, and its processor time."""
    before = resource.getrusage(resource.RUSAGE_CHILDREN)
    done = subprocess.run(words, cwd=folder, capture_output=True, text=True, check=False, timeout=SECONDS)
    after = resource.getrusage(resource.RUSAGE_CHILDREN)
    return done.returncode, done.stdout, after.ru_utime + after.ru_stime - before.ru_utime - before.ru_stime


class Trial:
    """Counts what was tried, and says what is otherwise."""

    def __init__(self, program):
        self.program, self.tried, self.wrong = program, 0, 0

    def wants(self, holds, words):
        """One thing tried."""
        self.tried += 1
        if not holds:
            self.wrong += 1
            print(words, flush=True)

    def put(self, files, questions):
        """All that argus says to these questions over these files, and all files that are there afterwards."""
        with tempfile.TemporaryDirectory() as folder:
            for name, text in files.items():
                with open(os.path.join(folder, name), "w", encoding="ascii") as out:
                    out.write(text)
            said = [called([self.program, *words], folder)[:2] for words in questions]
            put = {}
            for name in sorted(set(os.listdir(folder)) - set(files)):
                with open(os.path.join(folder, name), "rb") as source:
                    put[name] = source.read()
            return said, put


RUN = (("run", "j.job"), ("check", "j.job"))


def shown(survey, put):
    """What the tables show, by the names of the cells; their codes have to be those of the survey."""
    tables = []
    for number, table in enumerate(survey.tables, 1):
        rows = [line.split(",") for line in put[f"t{number}.csv"].decode("ascii").split("\n")[1:-1]]
        names = survey.names(table)
        if [[name[place] or "Total" for place, _ in table] for name in names] != [row[:-1] for row in rows]:
            return None
        tables.append({name: None if row[-1] == "x" else int(row[-1]) for name, row in zip(names, rows)})
    return tables


def given_away(survey, tables):
    """How many hidden sensitive cells the reader can place within their levels, and of how many."""
    worse, sensitive = 0, 0
    for name, (least, greatest) in reader.ends(tables).items():
        levels = survey.levels(name)
        if levels is not None:
            sensitive += 1
            truth = sum(survey.values(name))
            worse += greatest is not None and greatest < truth + levels[0] or least > truth - levels[1]
    return worse, sensitive


def read_release(trial, survey, about, files):
    """What the reader makes of a job's release, as `given_away`; None where it isn't released."""
    said, put = trial.put(files, RUN)
    if said[0][0] == 3 and said[0][1].startswith("cannot protect"):
        return None
    trial.wants([status for status, _ in said] == [0, 0], f"{about}: {said}")
    if said[0][0] != 0:
        return None
    tables = shown(survey, put)
    trial.wants(tables is not None, f"{about}: the tables have other lines")
    if tables is None:
        return None
    names = {name for table in tables for name in table}
    cells = int(re.search(r"([0-9]+) cells", said[0][1]).group(1))
    if "<DEPTH>" in files["j.job"]:
        trial.wants(cells == len(names), f"{about}: {cells} cells, and there are {len(names)}")
    for table in tables:
        wrong = [name for name, value in table.items() if value not in (None, sum(survey.values(name)))]
        bare = [name for name, value in table.items() if value is not None and survey.levels(name) is not None]
        trial.wants(not wrong and not bare, f"{about}: shows {wrong} wrongly, and the sensitive {bare}")
    return given_away(survey, tables)


def try_readers(trial, count):
    """The small jobs, until so many are released in both ways."""
    seed = released = sensitive = hints = away = jobs = 0
    while released < count and seed < 20 * count:
        seed += 1
        survey = small.Survey(seed)
        linked = read_release(trial, survey, f"small job {seed}", survey.by_depth())
        apart = read_release(trial, survey, f"small job {seed}, cut apart", survey.apart())
        if linked is None or apart is None or linked[1] == 0:
            continue
        released += 1
        sensitive += linked[1]
        hints += linked[0]
        away += apart[0]
        jobs += apart[0] > 0
        trial.wants(linked[0] == 0, f"small job {seed}: a reader places {linked[0]} sensitive cells within their levels")
    trial.wants(released == count, f"{released} small jobs are released, and {count} should be")
    trial.wants(away > 0, "cut apart, the small jobs give nothing away, so they try nothing")
    print(
        f"readers: {released} jobs with {sensitive} hidden sensitive cells, {hints} of them placed within their levels; "
        f"cut apart {away}, in {jobs} jobs",
        flush=True,
    )


FURTHER = ((), ("<COST> FREQ\n",), ('<CONTRIBUTORS> "t.extra"\n',), ('<APRIORI> "p.hst",1,";"\n',))
QUESTIONS = (*RUN, ("intervals", "j.job", "i.csv"))


def rounded(files):
    """The same job, rounding to a base."""
    return {**files, "j.job": files["j.job"].replace("MOD()", "RND(5)")}


def with_cut_parents(survey, level, answer):
    """What was said and put by a job with A at a level in all tables; in the certificate's steps, with A's parents as the tree
    of the cut field numbers them. A is the first variable of each table."""
    said, put = answer
    codes = sorted({code[:depth] for code in survey.codes(0) for depth in range(survey.depths[0] + 1)})
    upper = [code for code in codes if len(code) <= level]

    def renumbered(match):
        return match.group(1) + b"%d" % upper.index(codes[int(match.group(2))])

    changed = re.sub(rb"(?m)^(step [0-9]+ )([0-9]+)", renumbered, put.get("t.cert", b""))
    return said, {**put, "t.cert": changed} if "t.cert" in put else put


def try_same(trial, count):
    """Jobs that have to be the same."""
    same = 0
    for seed in range(1, count + 1):
        survey = small.Survey(1000 + seed)
        further = FURTHER[seed % len(FURTHER)]
        prior = {"p.hst": "Total;Total;c;7\n1;Total;pl;4;6\n1;1;c;3\n"}
        depth = survey.depths[0]
        pairs = [(f"{more} levels beyond the tree", depth, survey.plain(further), survey.by_depth(further, more)) for more in (0, 1, 9)]
        pairs += [(f"level {n}", n, survey.cut_to(n, further), survey.all_at(n, further)) for n in range(1, depth + 1)]
        for about, level, one, other in pairs:
            change = rounded if seed % 6 == 0 and "CONTRIBUTORS" not in "".join(further) else dict
            first, second = (trial.put({**change(files), **prior}, QUESTIONS) for files in (one, other))
            second = second if level == depth else with_cut_parents(survey, level, second)
            trial.wants(first == second, f"same job {seed}, {about}: {first[0]} and {second[0]}, or other bytes")
            trial.wants(first[0][0][0] in (0, 3), f"same job {seed}, {about}: {first[0]}")
            same += 1
    print(f"the same: {same} pairs of jobs", flush=True)


def try_large(trial, few):
    """The large job, with times."""
    with tempfile.TemporaryDirectory() as folder:
        large.write(folder, few)
        begun = time.time()
        for about, words in (
            ("run", [trial.program, "run", "r.job"]),
            ("check", [trial.program, "check", "r.job"]),
            ("outside/check", [OUTSIDE, "r.job"]),
        ):
            status, said, spent = called(words, folder)
            trial.wants(status == 0, f"large job, {about}: status {status}, {said}")
            print(f"large: {about}, {spent:.1f} s of processor time: {said.strip()}", flush=True)
        print(f"large: {time.time() - begun:.0f} s in all", flush=True)


def main(arguments):
    """Tries all; the last line sums up."""
    few = "--few" in arguments
    names = [argument for argument in arguments if argument != "--few"]
    if len(names) != 1 or names[0].startswith("-"):
        print("usage: run.py PROGRAM [--few]", file=sys.stderr)
        return 1
    trial = Trial(os.path.abspath(names[0]))
    try_readers(trial, 8 if few else 40)
    try_same(trial, 12 if few else 60)
    try_large(trial, few)
    print(f"depths: {trial.tried} tried, {trial.wrong} wrong")
    return 1 if trial.wrong else 0


if __name__ == "__main__":
    sys.exit(main(sys.argv[1:]))
