"""Tries of `seal` and `carry` with the built argus and cells of this checkout."""

import csv
import hashlib
import os
import random
import re
import shutil
from typing import Dict, List, Optional, Set, Tuple

from tries import TOP, call, put, read, same, wants

LAUNCHER = os.path.join(TOP, "argus")
SEAL, CARRY, PAGE = (LAUNCHER, "seal"), (LAUNCHER, "carry"), (LAUNCHER, "page")
# The built program, which the launcher has brought once (try_a_program_is_here).
ARGUS = os.path.join(TOP, "out", "argus")
# The files of each job, as a reader of the manual names them: those that it reads and those that it
# writes.
FILES = {
    ("protected", "turnover"): ("turnover.job firms.asc firms.rda", "turnover.csv turnover.cert"),
    ("manual", "survey"):
    ("survey.job survey.asc survey.rda region.cdl region.hrc", "survey.csv survey.cert"),
    ("linked", "firms"):
    ("firms.job firms.asc firms.rda region.hrc", "industry.csv size.csv firms.cert"),
    ("trade", "trade"): ("trade.job trade.asc trade.rda branch.cdl", "trade.csv trade.cert"),
    ("stated", "stated"): ("stated.job m.asc m.rda a.hst", "t.csv t.cert"),
    ("insider", "guarded"):
    ("guarded.job firms.asc firms.rda", "guarded.csv guarded.cert guarded.extra"),
}


def environment(**more: str) -> Dict[str, str]:
    """No try begins a build."""
    return {**os.environ, "ARGUS_BUILD": "0", "ARGUS_EXPLAIN": "0", **more}


def ask(folder: str, *words: str) -> Tuple[int, str, str]:
    return call(list(words), folder, environment())


def example(name: str, folder: str) -> str:
    return shutil.copytree(os.path.join(TOP, "examples", name), os.path.join(folder, name))


def sum_of(path: str) -> str:
    with open(path, "rb") as file:
        return hashlib.sha256(file.read()).hexdigest()


def try_a_program_is_here(folder: str) -> None:
    for name in ("argus", "cells"):
        status, said, told = ask(folder, os.path.join(TOP, name))
        wants(status == 1 and said.startswith("usage: ") or told.startswith("usage: "),
              "there is no program %s: %s" % (name, told.strip()))


def try_seal_each_kind_of_job(folder: str) -> None:
    for (name, job), (inputs, outputs) in FILES.items():
        place = example(name, folder)
        same(ask(place, ARGUS, "run", job + ".job")[0], 0, "argus run %s.job" % job)
        status, said, told = ask(place, *SEAL, job + ".job")
        wanted = (0, "sealed: %d inputs, %d outputs, %s.seal\n" %
                  (len(inputs.split()), len(outputs.split()), job), "")
        same((status, said, told), wanted, "seal %s.job" % job)
        lines = read(os.path.join(place, job + ".seal")).split("\n")
        named = {it[66:]: it[:64] for it in lines if it and it[0] != "#"}
        same(named,
             {it: sum_of(os.path.join(place, it))
              for it in (inputs + " " + outputs).split()}, "the files of %s.job" % job)
        same(
            lines.index("# outputs") - lines.index("# inputs") - 1, len(inputs.split()),
            "how many stand below `# inputs`")
        same(ask(place, *SEAL, "--check", job + ".job"), (0, "sealed\n", ""),
             "seal --check %s.job" % job)
        status, said, told = ask(place, "sha256sum", "--strict", "-c", job + ".seal")
        same((status, said.count(": OK\n"), told), (0, len(named), ""),
             "sha256sum -c %s.seal" % job)
        shutil.rmtree(place)


def released(folder: str) -> str:
    place = example("protected", folder)
    ask(place, ARGUS, "run", "turnover.job")
    ask(place, *SEAL, "turnover.job")
    return place


def try_seal_its_lines(folder: str) -> None:
    place = released(folder)
    lines = read(os.path.join(place, "turnover.seal")).split("\n")
    same(lines[0], "# argus seal 1", "line 1")
    wants(
        re.fullmatch(r"# date \d{4}-\d\d-\d\d \d\d:\d\d:\d\d UTC", lines[1]) is not None, lines[1])
    wants(
        re.fullmatch(
            r"# version argus, commit .+; kit rattle-kit-\w+ logic [0-9a-f]{16}; program .+",
            lines[2]) is not None, lines[2])
    same(lines[3], "# program " + sum_of(os.path.join(TOP, "out", "argus")), "line 4")
    same(lines[4:7], ["# command argus check turnover.job", "# answer accepted", "# inputs"],
         "lines 5 to 7")
    same(
        ask(place, *SEAL, "turnover.job", "--force", "--argus",
            os.path.join(TOP, "out", "argus"))[0], 0, "--argus")
    lines = read(os.path.join(place, "turnover.seal")).split("\n")
    same(lines[2:4], [
        "# version of a built program, which doesn't say",
        "# program " + sum_of(os.path.join(TOP, "out", "argus"))
    ], "with --argus")


def try_seal_a_changed_file(folder: str) -> None:
    place = released(folder)
    for name in " ".join(FILES["protected", "turnover"]).split():
        path = os.path.join(place, name)
        was = read(path)
        put(path, was + "\n")
        same(ask(place, *SEAL, "--check", "turnover.job"),
             (3, "not sealed: %s is another file\n" % name, ""), "%s has a line more" % name)
        os.remove(path)
        same(ask(place, *SEAL, "--check", "turnover.job"),
             (3, "not sealed: %s isn't there\n" % name, ""), "%s is gone" % name)
        put(path, was)
    seal = os.path.join(place, "turnover.seal")
    put(seal, "".join(it for it in read(seal).splitlines(True) if not it.endswith("  firms.asc\n")))
    same(ask(place, *SEAL, "--check", "turnover.job"),
         (3, "not sealed: the seal has no firms.asc\n", ""), "a line of the seal is gone")


def try_seal_refuses(folder: str) -> None:
    place = released(folder)
    seal = os.path.join(place, "turnover.seal")
    was = read(seal)
    status, said, told = ask(place, *SEAL, "turnover.job")
    wants((status, said) == (2, "") and "is there already" in told and read(seal) == was,
          "an earlier seal: %d %r" % (status, told))
    put(os.path.join(place, "turnover.csv"),
        read(os.path.join(place, "turnover.csv")).replace("140", "141"))
    status, said, told = ask(place, *SEAL, "turnover.job", "--force")
    is_refused = status == 3 and said.startswith("not accepted: ") and told.count("\n") == 1
    wants(is_refused and read(seal) == was, "a release that isn't accepted: %d %r" % (status, said))
    ask(place, ARGUS, "run", "turnover.job")
    same(ask(place, *SEAL, "turnover.job", "--force")[0], 0, "--force")
    put(seal, "my notes\n")
    for words in (["turnover.job"], ["turnover.job", "--force"]):
        status, said, told = ask(place, *SEAL, *words)
        wants(status == 2 and "isn't a seal" in told and read(seal) == "my notes\n",
              "another file of that name: %d %r" % (status, told))
    same(ask(place, *SEAL, "--check", "turnover.job")[0], 2, "--check of a file that is no seal")
    put(os.path.join(place, "a.job"),
        read(os.path.join(place, "turnover.job")).replace("turnover.csv", "a.seal"))
    wants("is a file of the job" in ask(place, *SEAL, "a.job", "--force")[2],
          "a table with the seal's name")
    for words in ([], ["a", "b"], ["--what", "a.job"], ["--check", "--force",
                                                        "a.job"], ["a.job", "--argus"]):
        same(ask(place, *SEAL, *words)[:2], (1, ""), "the words %r" % words)
    for name in ("nosuch.job", ".", "", "a\nb", "\xff"):
        status, said, told = ask(place, *SEAL, name)
        wants((status, said) == (2, "") and told.count("\n") == 1 and "Traceback" not in told,
              "the job %r: %d %r" % (name, status, told))


def try_seal_damaged_inputs(folder: str) -> None:
    """Whatever stands in the files, there is one line on standard error and no traceback."""
    place, draw = released(folder), random.Random(5)
    os.remove(os.path.join(place, "turnover.seal"))
    for _ in range(15):
        name = draw.choice(("turnover.job", "firms.rda"))
        path = os.path.join(place, name)
        was = read(path)
        at = draw.randrange(len(was))
        put(
            path, was[:at] + draw.choice(
                ("", '"', "<", "\0", "\xff", "x" * 300, "\n")) + was[at + draw.randrange(4):])
        status, said, told = ask(place, *SEAL, "turnover.job")
        wants("Traceback" not in told and (status == 0 or told.count("\n") == 1),
              "a damaged %s: %d %r" % (name, status, told))
        if os.path.exists(os.path.join(place, "turnover.seal")):
            os.remove(os.path.join(place, "turnover.seal"))
        put(path, was)


# ---- carry


def carried(place: str, *words: str) -> Tuple[int, List[str], str]:
    status, said, told = ask(place, *CARRY, *words)
    return status, said.splitlines(), told


def hidden_in(path: str) -> Set[Tuple[str, ...]]:
    with open(path, newline="", encoding="latin-1") as file:
        return {tuple(row[:-1]) for row in csv.reader(file) if row[-1] == "x"}


def try_carry_two_years(folder: str) -> None:
    place = example("years", folder)
    lines = read(os.path.join(place, "last.hst")).splitlines()
    put(os.path.join(place, "last.hst"), "")
    ask(place, ARGUS, "run", "turnover24.job")
    same(carried(place, "turnover24.job", "turnover25.job"),
         (0, lines, "carry: 4 hidden last year: 4 with a line\n"), "the example's lines")
    told = "carry: 4 hidden last year: 4 with a line\n"
    told += 'carry: the job names the file so: <APRIORI> "FILE",1,","\n'
    same(
        carried(place, "turnover24.job", "plain25.job")[1:], (lines, told),
        "where the job has no line <APRIORI>")
    put(os.path.join(place, "last.hst"), "".join(it + "\n" for it in lines))
    told = "carry: 4 hidden last year: 0 with a line; 4 with a price of its own\n"
    same(carried(place, "turnover24.job", "turnover25.job"), (0, [], told),
         "the lines are there already")
    for job in ("plain25", "turnover25"):
        same(ask(place, ARGUS, "run", job + ".job")[0], 0, "argus run %s.job" % job)
    last, plain, this = (hidden_in(os.path.join(place, it + ".csv"))
                         for it in ("turnover24", "plain25", "turnover25"))
    same((len(last & plain), this == last), (2, True),
         "how many stay hidden without the lines, and whether all do with them")


METADATA = (
    'Region 1 6\n<TOTCODE> "All"\n<RECODEABLE>\n'
    "Branch 7 6\n<RECODEABLE>\n%sTurnover 13 4\n<NUMERIC>\n")
JOB = (
    '<OPENMICRODATA> "%s.asc"\n<OPENMETADATA> "%s.rda"\n%s<SAFETYRULE> FREQ(3,30)\n'
    '<SUPPRESS> MOD()\n%s<CERTIFICATE> "%s.cert"\n')


def made(place: str,
         name: str,
         tables: List[Tuple[str, ...]],
         cells: Dict[Tuple[str, str], int],
         more: str = "",
         metadata: str = "") -> None:
    """A job with three equal firms in each cell."""
    lines = ["%-6s%-6s%4d\n" % (*codes, value) for codes, value in cells.items() for _ in range(3)]
    put(os.path.join(place, name + ".asc"), "".join(lines))
    put(os.path.join(place, name + ".rda"), METADATA % metadata)
    spans = "".join("<SPECIFYTABLE> %s|\"Turnover\"\n" % "".join('"%s"' % it for it in table)
                    for table in tables)
    written = "".join('<WRITETABLE> (%d,"%s%d.csv")\n' % (k, name, k)
                      for k in range(1,
                                     len(tables) + 1))
    put(os.path.join(place, name + ".job"), JOB % (name, name, spans + more, written, name))


def try_carry_each_reason(folder: str) -> None:
    """Last year's table is written by hand: its total has another name, and each hidden cell has a
    reason of its own.
    """
    made(folder, "last", [("Region", "Branch")], {})
    rows = (
        "Total,Sum,90 Total,A,x Total,B,50 North,Sum,x North,A,x North,B,x South,Sum,40 South,A,x "
        "South,B,5 West,A,x").split(
    )
    put(os.path.join(folder, "last1.csv"),
        "".join(it + "\n" for it in ["Region,Branch,Turnover"] + rows))
    cells = {("North", "A"): 10, ("North", "B"): 20, ("South", "A"): 30, ("East", "B"): 40}
    made(folder, "this", [("Region", "Branch"), ("Region", )], cells,
         '<APRIORI> "this.hst",1,";"\n')
    put(os.path.join(folder, "this.hst"), "North;B;C;7\nAll;A;p\n")
    found = carried(folder, "last.job", "this.job", "--table", "1")
    # All;A is always shown, North;B has a price, West is gone; South;A is in both tables' codes and
    # has a line
    same(found, (0, [
        "North;Total;c;1", "North;A;c;1", "South;A;c;1"
    ], ("carry: 6 hidden last year: 3 with a line; 1 always shown now; 1 with a code that is gone; "
        "1 with a price of its own\n")
                 ), "table 1")
    status, lines, told = carried(folder, "last.job", "this.job", "--table", "2")
    same((status, lines), (0, ["North,c,1"]), "table 2")
    wants('<APRIORI> "FILE",2,","' in told, "what it says of table 2: %r" % told)
    status, lines, told = carried(folder, "last.job", "this.job")
    wants((status, lines) == (2, []) and "has 2 tables: say --table 1 to --table 2" in told,
          "no table is named: %d %r" % (status, told))
    made(folder, "less", [("Region", )], cells)
    same(
        carried(folder, "last.job", "less.job")[1:],
        (["North,c,1"
          ], 'carry: 6 hidden last year: 1 with a line; 5 of a variable that is in no table now\n'
         'carry: the job names the file so: <APRIORI> "FILE",1,","\n'), "a variable less")
    put(os.path.join(folder, "this.hst"), "".join(line + "\n" for line in found[1]))
    same(ask(folder, ARGUS, "run", "this.job")[0], 0, "argus run with the lines")


# Two tables by the same variables, the second down to level 1 of the branches.
LEVELS = "<HIERARCHICAL>\n<HIERLEVELS> 1 5\n"
DEPTH = '<DEPTH> (2,"Branch",1)\n'
TWICE = [("Region", "Branch"), ("Region", "Branch")]
TWO_LEVELS = {
    ("North", "A1"): 10,
    ("North", "A2"): 20,
    ("North", "B1"): 40,
    ("South", "A1"): 30,
    ("South", "B1"): 40
}


def try_carry_levels(folder: str) -> None:
    """Tables at two levels: a line for table 2 names a cell that table 2 has, and argus takes it.
    """
    made(folder, "last", TWICE, TWO_LEVELS, DEPTH, LEVELS)
    put(os.path.join(folder, "last1.csv"),
        "Region,Branch,Turnover\nAll,Total,420\nNorth,A1,x\nNorth,A,x\nNorth,B1,x\n")
    put(os.path.join(folder, "last2.csv"), "Region,Branch,Turnover\nAll,Total,420\nNorth,A,x\n")
    made(folder, "this", TWICE, TWO_LEVELS, DEPTH + '<APRIORI> "this.hst",2,","\n', LEVELS)
    put(os.path.join(folder, "this.hst"), "")
    same(
        carried(folder, "last.job", "this.job", "--table", "1")[:2],
        (0, ["North,A1,c,1", "North,A,c,1", "North,B1,c,1"]), "table 1")
    found = carried(folder, "last.job", "this.job", "--table", "2")
    same(found,
         (0, ["North,A,c,1"], "carry: 3 hidden last year: 1 with a line; 2 of another table\n"),
         "table 2")
    put(os.path.join(folder, "this.hst"), "".join(it + "\n" for it in found[1]))
    wants(
        ask(folder, ARGUS, "run", "this.job")[1].startswith("released: 15 records"),
        "argus doesn't take the line")


def try_seal_levels(folder: str) -> None:
    """A job with a line DEPTH: its word in quotes is no file."""
    made(folder, "this", TWICE, TWO_LEVELS, DEPTH, LEVELS)
    same(ask(folder, ARGUS, "run", "this.job")[0], 0, "argus run")
    same(ask(folder, *SEAL, "this.job")[0], 0, "seal")
    lines = read(os.path.join(folder, "this.seal")).split("\n")
    same([it[66:] for it in lines if it and it[0] != "#"],
         ["this.job", "this.asc", "this.rda", "this1.csv", "this2.csv", "this.cert"], "the files")
    same(ask(folder, *SEAL, "--check", "this.job"), (0, "sealed\n", ""), "seal --check")


# Lines of 60,000 bytes at which a pattern could take its time.
LONG = [
    "<DEPTH> (" + "0" * 60000, '<DEPTH> (1,"' + "A" * 60000, "<DEPTH>" + " " * 60000 + "x",
    "<SUPPRESS> RND(" + "0" * 60000, "<SPECIFYTABLE> " + "| " * 30000 + "x", '"' * 60001,
    " " * 60000 + "x", "x" + " " * 60000 + "x", "@" * 60000 + "x", "<" * 60000, "(" * 60000,
    "1" * 60000, "<SAFETYRULE> " + "P(1)|" * 12000, '<APRIORI> ' + '","' * 20000,
    "<WRITETABLE> (" + "1" * 60000, "<STEPS> 1" + " " * 60000 + "1", "a," * 30000,
    "<" + "A" * 60000, "1:1 " * 15000
]
SECONDS = 5


def try_long_lines(folder: str) -> None:
    """Whatever stands in a line of 60,000 bytes of a file, seal, carry and page end within seconds,
    and say no more than a line.
    """
    for name, job, files in ((
            "manual", "survey",
            "survey.job survey.asc survey.rda region.cdl region.hrc survey.csv survey.cert"),
                             ("stated", "stated", "a.hst")):
        place = example(name, folder)
        ask(place, ARGUS, "run", job + ".job")
        whole = {it: read(os.path.join(place, it)) for it in files.split()}
        for file, was in whole.items():
            put(os.path.join(place, file), was + "".join(it + "\n" for it in LONG))
            for words in ([*SEAL, job + ".job", "--force"], [*CARRY, job + ".job", job + ".job"],
                          [*PAGE, job + ".job"], [*PAGE, job + ".job", "--public", "--unchecked"]):
                begun = os.times()
                status, _, told = ask(place, *words)
                used = os.times()
                seconds = used.children_user - begun.children_user
                wants(
                    seconds < SECONDS and "Traceback" not in told and status in (0, 1, 2, 3),
                    "%s with long lines in %s: %.1f s, %d %s" %
                    (os.path.basename(words[0]), file, seconds, status, told[:200]))
            put(os.path.join(place, file), was)


def try_carry_odd_codes(folder: str) -> None:
    odd = [("a,b", '"q"'), ("a;b", "\xfc"), (" ", "|")]
    cells = {(one, other): 10 for one, _ in odd for _, other in odd}
    made(folder, "last", [("Region", "Branch")], cells)
    made(folder, "this", [("Region", "Branch")], cells)
    lines = ['Region,Branch,Turnover', 'All,Total,270'
             ] + ['"a,b",%s,%s' % (it, "x")
                  for it in ('"""q"""', "|", "\xfc")] + [",|,x", "a;b,\xfc,x"]
    put(os.path.join(folder, "last1.csv"), "".join(it + "\n" for it in lines))
    status, found, told = carried(folder, "last.job", "this.job")
    same((status, found),
         (0, ['a,b:"q":c:1', "a,b:|:c:1", "a,b:\xfc:c:1", ":|:c:1", "a;b:\xfc:c:1"]),
         "codes with separators in them")
    put(os.path.join(folder, "this.hst"), "".join(it + "\n" for it in found))
    put(os.path.join(folder, "this.job"),
        read(os.path.join(folder, "this.job")) + '<APRIORI> "this.hst",1,":"\n')
    wants(
        ask(folder, ARGUS, "run", "this.job")[1].startswith("released: 27 records"),
        "argus doesn't take the lines")
    put(os.path.join(folder, "this.hst"), "")
    put(os.path.join(folder, "this.job"),
        read(os.path.join(folder, "this.job")).replace('1,":"', '1,","'))
    status, found, told = carried(folder, "last.job", "this.job")
    wants((status, found) == (2, []) and told.count("\n") == 1 and "take another there" in told,
          "a separator that a code has: %d %r" % (status, told))


def try_carry_made_registers(folder: str) -> None:
    """Over made registers: a line for each cell that was hidden and has both codes still, and argus
    releases with the lines.
    """
    draw = random.Random(11)
    for number in range(3):
        place = os.path.join(folder, str(number))
        for name in ("last", "this"):
            cells = {(r, b): draw.randint(5, 90)
                     for r in "RSTU" for b in "FGH" if draw.random() < 0.9}
            made(place, name, [("Region", "Branch")], cells, '<APRIORI> "%s.hst",1,","\n' % name)
            text = "".join(it for it in read(os.path.join(place, name + ".asc")).splitlines(True)
                           if draw.random() < 0.85)
            put(os.path.join(place, name + ".asc"), text)
            put(os.path.join(place, name + ".hst"), "")
        if ask(place, ARGUS, "run", "last.job")[0] != 0:
            continue
        status, lines, _ = carried(place, "last.job", "this.job")
        codes = {(line[:6].strip(), line[6:12].strip())
                 for line in read(os.path.join(place, "this.asc")).splitlines()}
        all_of = [{"All"} | {it[0] for it in codes}, {"Total"} | {it[1] for it in codes}]
        filled = {(region, branch)
                  for r, b in codes for region in ("All", r) for branch in ("Total", b)}
        wanted = sorted("%s,%s,c,1" % row for row in hidden_in(os.path.join(place, "last1.csv"))
                        if row[0] in all_of[0] and row[1] in all_of[1] and row[:2] in filled)
        same((status, sorted(lines)), (0, wanted), "the lines of register %d" % number)
        put(os.path.join(place, "this.hst"), "".join(it + "\n" for it in lines))
        status, said, _ = ask(place, ARGUS, "run", "this.job")
        wants(status == 0 and ask(place, ARGUS, "check", "this.job")[1] == "accepted\n",
              "register %d with the lines: %r" % (number, said))


def try_carry_refuses(folder: str) -> None:
    place = example("years", folder)
    for words in ([], ["a"], ["a", "b", "c"], ["a", "b", "--table"], ["a", "b", "--table",
                                                                      "9"], ["a", "b", "--what"]):
        same(ask(place, *CARRY, *words)[:2], (1, ""), "the words %r" % words)
    cases: List[Tuple[List[str],
                      Optional[str]]] = [(["turnover24.job",
                                           "turnover25.job"], "turnover24.csv: No such file"),
                                         (["no.job", "turnover25.job"], "no.job: No such file"),
                                         (["turnover24.job", "no.job"], "no.job: No such file"),
                                         (["firms.rda",
                                           "turnover25.job"], "no line <SPECIFYTABLE>"),
                                         (["\0\xff"[1:], "."], None)]
    for words, why in cases:
        status, said, told = ask(place, *CARRY, *words)
        wants((status, said) == (2, "") and told.count("\n") == 1 and (why or "carry: ") in told,
              "carry %r: %d %r" % (words, status, told))
    ask(place, ARGUS, "run", "turnover24.job")
    table = os.path.join(place, "turnover24.csv")
    whole, draw = read(table), random.Random(3)
    for _ in range(10):
        at = draw.randrange(len(whole))
        put(table, whole[:at] + draw.choice(
            ('"', "\0", "\n", ",", "")) + whole[at + draw.randrange(3):])
        status, said, told = ask(place, *CARRY, "turnover24.job", "turnover25.job")
        wants(status in (0, 2) and "Traceback" not in told,
              "a damaged table: %d %r" % (status, told))
    put(table, whole)
    put(os.path.join(place, "firms25.asc"), "North Food    1x\n")
    status, said, told = ask(place, *CARRY, "turnover24.job", "turnover25.job")
    wants(status == 2 and told == "carry: cells turnover25.job: refused: record 1: BadNumber\n",
          "a record that is refused: %r" % told)
