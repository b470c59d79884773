#!/usr/bin/env python3
"""Measures the two versions of a certificate, and jobs near the limits.

usage: run.py PROGRAM PART..

The parts, each with its own made files:

  forms       a two-way table with some 1,200 hidden cells: the bytes of its certificate in both versions, and the times of `migrate` and
              `check` with each. This script writes the first version from the second, since the program doesn't.
  six         a table by six variables of two codes each, 729 cells
  cells       a table of 60,000 cells with few primary ones
  size        5,000 codes of one list, of one record each, all primary: more hidden cells hang together than a question is asked of. It runs
              here alone; the gate runs 4,001 such codes, and 5,000 codes of four levels
  flat, levels, three
              tables of growing size, by two flat variables, by two with two levels each, and by three flat ones: how many hidden cells hang together in
              the greatest one that is decided, in SECONDS (of the environment, 600 where nothing is said) of the clock

Times are of the processor, memory is the most that the program held at once. The status is 1 where an answer isn't the one that is expected.
"""

import os
import random
import re
import signal
import subprocess
import sys
import tempfile

JOB = (
    '<OPENMICRODATA> "m.asc"\n<OPENMETADATA> "m.rda"\n<SPECIFYTABLE> {}|"V"\n<SAFETYRULE> {}\n{}<SUPPRESS> MOD()\n'
    '<WRITETABLE> (1,"t.csv")\n<CERTIFICATE> "{}"\n'
)
NAMES = "ABCDEF"


def called(program, words, folder, seconds=None):
    """What the program says, its processor time in seconds and the most memory in megabytes; what it says is None where time ran out."""
    child = subprocess.Popen([program, *words], cwd=folder, stdout=subprocess.PIPE, stderr=subprocess.DEVNULL, stdin=subprocess.DEVNULL)
    ended = False

    def end(*_):
        nonlocal ended
        ended = True
        child.kill()

    if seconds:
        signal.signal(signal.SIGALRM, end)
        signal.alarm(seconds)
    said = child.stdout.read().decode()
    _, _, used = os.wait4(child.pid, 0)
    signal.alarm(0)
    child.stdout.close()
    child.returncode = 0
    return (None if ended else said.strip()), used.ru_utime + used.ru_stime, used.ru_maxrss / 1024


def codes(levels):
    """All codes of the lowest level of a variable with so many codes at each level below one code."""
    all_codes = [""]
    for count in levels:
        width = len(str(count - 1))
        all_codes = [code + str(k).zfill(width) for code in all_codes for k in range(count)]
    return all_codes


def metadata(variables):
    """The metadata of variables with these levels, and of a response of four bytes behind them."""
    lines, first = "", 1
    for name, levels in zip(NAMES, variables):
        widths = [len(str(count - 1)) for count in levels]
        lines += f"{name} {first} {sum(widths)}\n<RECODEABLE>\n"
        if len(levels) > 1:
            lines += "<HIERARCHICAL>\n<HIERLEVELS> " + " ".join(map(str, widths)) + "\n"
        first += sum(widths)
    return lines + f"V {first} 4\n<NUMERIC>\n"


def places(variables):
    if not variables:
        yield ""
        return
    for place in places(variables[:-1]):
        for code in codes(variables[-1]):
            yield place + code


def write(folder, variables, rate, least=4, rule="FREQ(3,30)", certificate="t.cert"):
    """Writes a job over a table by these variables. A share of the inner cells has two records, the others `least` or one more."""
    numbers = random.Random(1)
    records = 0
    with open(os.path.join(folder, "m.asc"), "w", encoding="ascii") as out:
        for place in places(variables):
            count = 2 if numbers.random() < rate else least + numbers.randint(0, 1)
            records += count
            for _ in range(count):
                out.write(f"{place}{numbers.randint(1, 1000):4d}\n")
    put(folder, "m.rda", metadata(variables))
    put(folder, "r.job", job(len(variables), rule, certificate))
    return records


def job(variables, rule, certificate):
    return JOB.format("".join(f'"{name}"' for name in NAMES[:variables]), rule, "<STEPS> 1000000000000\n", certificate)


def put(folder, name, text):
    with open(os.path.join(folder, name), "w", encoding="ascii") as out:
        out.write(text)


def got(folder, name):
    with open(os.path.join(folder, name), encoding="ascii") as source:
        return source.read()


def first_version(text):
    """A certificate of the second version in the first one."""
    lines, hidden = [], []
    for line in text.splitlines():
        words = line.split(" ")
        if words[0] == "hidden":
            hidden = words[1:]
        if words[0] == "world":
            moves = dict(word.split(":") for word in words[4:])
            words = words[:4] + [moves.get(cell, "0") for cell in hidden]
        lines.append(" ".join(words))
    lines[0] = "argus certificate 1"
    return "\n".join(lines) + "\n"


def shown(name, result):
    said, seconds, megabytes = result
    print(f"  {name}: {said or 'not decided'}: {seconds:.2f} s, {megabytes:.0f} MB", flush=True)
    return said


def forms(program):
    good = True
    with tempfile.TemporaryDirectory() as folder:
        write(folder, [[82], [82]], 0.18)
        shown("run", called(program, ["run", "r.job"], folder))
        second = got(folder, "t.cert")
        first = first_version(second)
        put(folder, "first.cert", first)
        put(folder, "first.job", job(2, "FREQ(3,30)", "first.cert"))
        print(f"  {len(first)} bytes in the first version, {len(second)} in the second, {len(first) / len(second):.1f} to 1")
        for name, old in (("first", "first.cert"), ("second", "t.cert")):
            good &= shown(f"migrate, from the {name}", called(program, ["migrate", old, "new.cert"], folder)) == "migrated"
            good &= got(folder, "new.cert") == second
        good &= shown("check, with the first", called(program, ["check", "first.job"], folder)) == "accepted"
        good &= shown("check, with the second", called(program, ["check", "r.job"], folder)) == "accepted"
    return good


def six(program):
    with tempfile.TemporaryDirectory() as folder:
        good = True
        for rule in ("FREQ(1,30)", "FREQ(3,30)"):
            write(folder, [[2]] * 6, 0.1, rule=rule)
            said = shown(rule, called(program, ["run", "r.job"], folder))
            good &= " 729 cells" in said and "relations 1458\n" in got(folder, "t.cert")
        return good


def cells(program):
    with tempfile.TemporaryDirectory() as folder:
        records = write(folder, [[299], [199]], 0.0005)
        print(f"  {records} records")
        said = shown("run", called(program, ["run", "r.job"], folder))
        checked = shown("check", called(program, ["check", "r.job"], folder))
        return " 60000 cells" in said and checked == "accepted"


def size(program):
    with tempfile.TemporaryDirectory() as folder:
        put(folder, "a.cdl", "".join(f"{k:04d}\n" for k in range(1, 5001)))
        put(folder, "m.asc", "".join(f"{k:04d} 10\n" for k in range(1, 5001)))
        put(folder, "m.rda", 'A 1 4\n<RECODEABLE>\n<CODELIST> "a.cdl"\nV 5 3\n<NUMERIC>\n')
        put(folder, "r.job", JOB.format('"A"', "FREQ(3,30)", "", "t.cert"))
        said = shown("run", called(program, ["run", "r.job"], folder))
        return said == "undecided: size, cell 1 above, 5000 hidden"


def greatest(table, cells_of):
    """How many hidden cells hang together at most, by the relations that the codes of the table's lines give."""
    lines = [line.split(",") for line in table.splitlines()[1:]]
    up = {}

    def top(cell):
        while up.setdefault(cell, cell) != cell:
            up[cell] = up[up[cell]]
            cell = up[cell]
        return cell

    hidden = [tuple(line[:-1]) for line in lines if line[-1] == "x"]
    link = {}
    for place in hidden:
        for k, levels in enumerate(cells_of):
            for total in {place[k], above(place[k], levels)} - {None}:
                relation = (k, place[:k] + (total,) + place[k + 1 :])
                if relation in link:
                    up[top(place)] = top(link[relation])
                link[relation] = place
    sizes = {}
    for place in hidden:
        sizes[top(place)] = sizes.get(top(place), 0) + 1
    return max(sizes.values(), default=0), len(hidden)


def above(code, levels):
    """The code right above, None for the total. The lowest codes count as totals too, of relations that there aren't, which link nothing."""
    if code == "Total":
        return None
    ends = [0]
    for count in levels:
        ends.append(ends[-1] + len(str(count - 1)))
    return code[: ends[ends.index(len(code)) - 1]] or "Total"


def series(tables):
    """A part that runs tables of growing size, until one isn't decided in time."""

    def part(program):
        for variables in tables:
            with tempfile.TemporaryDirectory() as folder:
                write(folder, variables, 0.18)
                result = called(program, ["run", "r.job"], folder, int(os.environ.get("SECONDS", "600")))
                shown(" by ".join(" and ".join(map(str, levels)) for levels in variables), result)
                if result[0] is None:
                    break
                if result[0].startswith("released"):
                    print("    the greatest component has %d of %d hidden cells" % greatest(got(folder, "t.csv"), variables), flush=True)
        return True

    return part


PARTS = {
    "forms": forms,
    "six": six,
    "cells": cells,
    "size": size,
    "flat": series([[[n], [n]] for n in (60, 80, 95, 105)]),
    "levels": series([[[n, n], [n, n]] for n in (5, 6, 7, 8, 9, 10)]),
    "three": series([[[n], [n], [n]] for n in (6, 7, 8, 9, 10)]),
}


def main():
    if len(sys.argv) < 3 or any(part not in PARTS for part in sys.argv[2:]):
        sys.exit(__doc__)
    program = os.path.abspath(sys.argv[1])
    good = True
    for part in sys.argv[2:]:
        print(part, flush=True)
        good &= PARTS[part](program)
    return 0 if good else 1


sys.exit(main())
