#!/usr/bin/env python3
"""Lets each call for memory of argus and of `cells` fail in turn, by a small library in front of the C library's.

usage: run.py [PROGRAM [JOB..]]

For each of the jobs below, or those whose titles are named, `run`, `check` of what it put, `intervals`, or `audit` where the job rounds, and
`migrate` of its certificate must answer `memory` with status 7 and leave a whole front part of their files, or answer and leave what they do
with ample memory; where there is no memory for the report's line, nothing is printed. No other file changes. A `run` that lacked memory
within a question may put a certificate with other complete tables: then the tables are those of ample memory, and `check` accepts them with
it; how many did so is printed. Of one job the four listings of `cells` are tried too: a listing is printed whole with status 0, or none of
it with the line `memory` and status 7. With ample memory each answer and each file has to be the one that is expected: the answers stand
below, and the files and listings are those of the examples (NAME.expected). It needs `python3` and `cc`; the program is that of
`../../argus`, which builds it, where none is named, and `cells` is beside it. The status is 1 where a call does anything else. AT_ONCE in
the environment is how many calls run side by side, one where nothing is said.
"""

import concurrent.futures
import os
import shutil
import subprocess
import sys
import tempfile

HERE = os.path.dirname(os.path.abspath(__file__))
TOP = os.path.dirname(os.path.dirname(HERE))
PROGRAM = os.path.abspath(sys.argv[1]) if len(sys.argv) > 1 else os.path.join(TOP, "out", "argus")
CELLS = os.path.join(os.path.dirname(PROGRAM), "cells")
AT_ONCE = int(os.environ.get("AT_ONCE", "1"))
RANGES, AUDIT, AGAIN = "ranges.csv", "audit.csv", "again.cert"


def held(folder):
    """The bytes of each file."""
    files = {}
    for name in sorted(os.listdir(folder)):
        with open(os.path.join(folder, name), "rb") as source:
            files[name] = source.read()
    return files


def example(name, job="", old="", new=""):
    """The files of an example, with one text in the place of another in its job."""
    files = held(os.path.join(TOP, "examples", name))
    if job:
        files[job] = files[job].replace(old.encode(), new.encode())
        files = {it: text for it, text in files.items() if not it.endswith(".expected")}
    return files


def job_of(table, rules, method):
    """A job of one table, as it stands in a file."""
    lines = ['<OPENMICRODATA> "m.asc"', '<OPENMETADATA> "m.rda"', f"<SPECIFYTABLE> {table}", f"<SAFETYRULE> {rules}"]
    lines += [f"<SUPPRESS> {method}", '<WRITETABLE> (1,"t.csv")', '<CERTIFICATE> "t.cert"']
    return ("\n".join(lines) + "\n").encode()


# A table by industries of two levels, of which two cells are primary and two more are hidden for them.
BY_INDUSTRY = {
    "r.job": job_of('"Ind"|"Turn"', "FREQ(3,30)|P(10)", "MOD()"),
    "m.rda": b"Ind 1 2 99\n<RECODEABLE>\n<HIERARCHICAL>\n<HIERLEVELS> 1 1 0 0 0\nReg 3 2\n<RECODEABLE>\n<TOTCODE> All\nReq 5 1\n"
    b'<REQUEST> "1" "2"\nHold 6 3\n<HOLDING>\nTurn 9 6 999999 888888\n<NUMERIC>\n<DECIMALS> 0\n',
    "m.asc": b"11Nr0001    10\n11Nr0002    20\n11Os0003    30\n12Nr0004     5\n12Os0005     5\n12Os0006     5\n21Nr0007    40\n"
    b"21Nr0008     1\n21Os0009     1\n21Os0010999999\n",
}
# The table 3 4 / 6 2, rounded to multiples of 5.
FOUR = {
    "r.job": job_of('"A""B"|"V"', "FREQ(3,30)", "RND(5)"),
    "m.rda": b"A 1 1\n<RECODEABLE>\nB 2 1\n<RECODEABLE>\nV 3 2\n<NUMERIC>\n",
    "m.asc": b"11 3\n12 4\n21 6\n22 2\n",
}


def released(numbers):
    """The answer of `run` with these numbers: of records, skipped ones, lines passed over, cells, primary and hidden ones."""
    return "released: %d records, %d skipped, %d passed over, %d cells, %d primary, %d hidden" % numbers


def hiding(job, puts, numbers):
    """The calls for a job that hides: their words, the files that they put in this order, and the answer."""
    return (
        (("run", job), puts, released(numbers)),
        (("check", job), (), "accepted"),
        (("intervals", job, RANGES), (RANGES,), "intervals: %d cells" % numbers[-1]),
        (("migrate", puts[0], AGAIN), (AGAIN,), "migrated"),
    )


def listing(job):
    """The calls of `cells` for a job that hides, whose intervals stand; each is to print what is expected of it."""
    kinds = (("cells", ()), ("relations", ("--relations",)), ("released", ("--released",)), ("intervals", ("--released", "--intervals", RANGES)))
    return tuple((("cells", job, *options), (), job.replace(".job", f".{kind}.expected")) for kind, options in kinds)


def rounding(job, puts, numbers, exposed, audit=AUDIT):
    """The calls for a job that rounds, of whose primary cells so many are exposed."""
    return (
        (("run", job), puts, released(numbers)),
        (("check", job), (), "accepted"),
        (("audit", job, audit), (audit,), "audited: %d primary, %d exposed" % (numbers[-2], exposed)),
        (("migrate", puts[0], AGAIN), (AGAIN,), "migrated"),
    )


# A release with a certificate of the first version, which is brought into the second, and from the second into the second.
MIGRATING = (
    (("check", "branches.job"), (), "accepted"),
    (("migrate", "branches.cert", AGAIN), (AGAIN,), "migrated"),
    (("check", "again.job"), (), "accepted"),
    (("migrate", AGAIN, "twice.cert"), ("twice.cert",), "migrated"),
)
# A title, the files, and the calls. The second job of `insider` hides two extra cells, the first one. With the rule of `linked` made stricter,
# cells of both tables over its hierarchy are hidden.
JOBS = (
    ("first", example("first"), hiding("r1.job", ("t.cert", "t.csv"), (7, 0, 0, 3, 0, 0))),
    ("stated", example("stated"), hiding("stated.job", ("t.cert", "t.csv"), (6, 0, 0, 3, 0, 0))),
    (
        "protected",
        example("protected"),
        (*hiding("turnover.job", ("turnover.cert", "turnover.csv"), (13, 0, 0, 9, 1, 4)), *listing("turnover.job")),
    ),
    ("rounded", example("rounded"), rounding("turnover.job", ("turnover.cert", "turnover.csv"), (13, 0, 0, 9, 1, 0), 0)),
    ("by industry", BY_INDUSTRY, hiding("r.job", ("t.cert", "t.csv"), (9, 1, 2, 6, 2, 4))),
    ("four cells", FOUR, rounding("r.job", ("t.cert", "t.csv"), (4, 0, 0, 9, 8, 0), 2)),
    ("audited", example("audited"), rounding("known.job", ("known.cert", "known.csv"), (6, 0, 0, 4, 1, 0), 1, "known_audit.csv")),
    ("guarded", example("insider"), hiding("guarded.job", ("guarded.cert", "guarded.extra", "guarded.csv"), (6, 0, 0, 4, 2, 3))),
    ("subtotals", example("insider"), hiding("rest.job", ("rest.cert", "rest.extra", "rest.csv"), (10, 0, 0, 10, 6, 8))),
    ("migrated", example("migrated"), MIGRATING),
    (
        "linked",
        example("linked", "firms.job", "FREQ(2,30)", "FREQ(3,30)"),
        hiding("firms.job", ("firms.cert", "industry.csv", "size.csv"), (16, 0, 0, 35, 16, 20)),
    ),
)


def call(folder, words, names, library, **settings):
    """The status, the output and the files of a call in a folder in which what it puts doesn't stand yet; `cells` is the other program."""
    for name in names:
        if os.path.exists(os.path.join(folder, name)):
            os.remove(os.path.join(folder, name))
    environment = dict(os.environ, LD_PRELOAD=library, **settings)
    command = [CELLS, *words[1:]] if words[0] == "cells" else [PROGRAM, *words]
    done = subprocess.run(command, cwd=folder, env=environment, stdout=subprocess.PIPE, stderr=subprocess.STDOUT, check=False)
    return done.returncode, done.stdout, held(folder)


def is_fine(words, answer, ample, names):
    """Whether a call answered as it may where a call for memory fails; only a report's line may be missing, never a listing."""
    status, output, files = answer
    put = [name for name in names if name in files]
    if any(files[name] != ample[2].get(name) for name in files) or len(files) != len(ample[2]) - len(names) + len(put):
        return False
    if status == 7:
        return output in (b"memory\n", b"") and put == list(names[: len(put)])
    lines = (ample[1],) if words[0] == "cells" else (ample[1], b"")
    return status == ample[0] and output in lines and files == ample[2]


def is_other_certificate(folder, words, answer, ample, names):
    """Whether a `run` ended as with ample memory but for its certificate, which `check` accepts."""
    status, output, files = answer
    if words[0] != "run" or status != ample[0] or output not in (ample[1], b"") or files.keys() != ample[2].keys():
        return False
    if any(files[name] != ample[2][name] for name in files if name != names[0]):
        return False
    return subprocess.run([PROGRAM, "check", words[1]], cwd=folder, capture_output=True, check=False).stdout == b"accepted\n"


def is_expected(words, ample, names, said):
    """Whether a call with ample memory says this line, or the listing in the file of this name, and puts all its files, and those that are
    known as they should be."""
    status, output, files = ample
    printed = files[said] if words[0] == "cells" else said.encode() + b"\n"
    known = all(files.get(name) == files.get(name + ".expected", files.get(name)) for name in names)
    return status == 0 and output == printed and known and all(name in files for name in names)


def told(answer, ample):
    """What a call answered, and the names of the files that aren't those with ample memory."""
    status, output, files = answer
    others = sorted(name for name in files.keys() | ample[2].keys() if files.get(name) != ample[2].get(name))
    return f"status {status}, {output}, other files: {' '.join(others) or 'none'}"


def failing(folder, words, names, library, ample, numbers):
    """Those of the calls for memory, by number, whose failing ends otherwise than it may, with the answer; how many put another certificate."""
    bad, others = [], 0
    for number in numbers:
        answer = call(folder, words, names, library, FAIL_AT=str(number))
        if is_fine(words, answer, ample, names):
            continue
        if is_other_certificate(folder, words, answer, ample, names):
            others += 1
        else:
            bad.append((number, answer))
    return bad, others


def tried(folder, title, words, names, said, library):
    """How many calls for memory there are whose failing ends otherwise than it may."""
    count_to = os.path.join(folder, "..", "count")
    ample = call(folder, words, names, library, COUNT_TO=count_to)
    with open(count_to, encoding="ascii") as source:
        calls = int(source.read())
    bad, others = 0, 0
    heading = f"{title}: {' '.join(words)}"
    if not is_expected(words, ample, names, said):
        bad += 1
        print(f"{heading}: with ample memory: {ample}")
    with tempfile.TemporaryDirectory() as scratch, concurrent.futures.ThreadPoolExecutor(AT_ONCE) as pool:
        # Calls side by side have a folder each.
        shares = [(shutil.copytree(folder, os.path.join(scratch, str(k))), range(k + 1, calls + 1, AT_ONCE)) for k in range(AT_ONCE)]
        for found, more in pool.map(lambda share: failing(share[0], words, names, library, ample, share[1]), shares):
            bad += len(found)
            others += more
            for number, answer in found:
                print(f"{heading}: call {number}: {told(answer, ample)}")
    besides = f", {others} with another certificate, accepted" if others else ""
    print(f"{heading}: {calls} calls for memory, each failing in turn: {said}{besides}", flush=True)
    return bad


def main():
    titles = sys.argv[2:] or [title for title, _, _ in JOBS]
    if not {*titles} <= {title for title, _, _ in JOBS}:
        sys.exit(__doc__)
    bad = 0
    with tempfile.TemporaryDirectory() as scratch:
        library = os.path.join(scratch, "failing.so")
        subprocess.run(["cc", "-O2", "-shared", "-fPIC", "-o", library, os.path.join(HERE, "failing.c"), "-ldl"], check=True)
        for title, files, calls in JOBS:
            if title not in titles:
                continue
            folder = os.path.join(scratch, title)
            os.mkdir(folder)
            for name, text in files.items():
                with open(os.path.join(folder, name), "wb") as out:
                    out.write(text)
            for words, names, said in calls:
                bad += tried(folder, title, words, names, said, library)
    return 1 if bad else 0


if __name__ == "__main__":
    sys.exit(main())
