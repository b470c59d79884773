#!/usr/bin/env python3
"""Says where the time of a crate's check goes, and answers goals that the prover searches for long.

usage: run.py times CRATE FOLDER [--anew]
       run.py answers CRATE FOLDER [--least SECONDS] [--gain SECONDS] [FUNCTION..]

`times` copies the crate to FOLDER, which must be new and outside the repository, checks the copy from nothing with one
job, and prints how the time is shared out among kinds of modules, which functions take longest, and in which functions
the goals without an answer do. A module's file is written when the module is checked, so what it took is the processor
time that the prover used since the file before. The times stay in FOLDER and are printed again without a check; `--anew`
takes them anew, and prints those before beside them.

`answers` takes the functions whose goals without an answer took at least `--least` seconds (1), or those named, as
`rooms::rise_of`. In the copy it tries each goal with the first attempt of the kit's row, `search` with `ints`, and then
with others. Where one closes the goal `--gain` seconds (0.3) sooner, it becomes the goal's answer. The functions are then
proved in the copy, and the answers of those that are proved and `--gain` seconds faster are written into the crate's
`proofs/`. Nothing else in the repository is touched. `proofs/` must be committed before, so that this undoes it:
git checkout crates/CRATE/proofs && git clean -fd crates/CRATE/proofs

It needs Linux, git, the command `rt` with its kit, and the libraries below the crate, built in this clone: `rt check` in
the crate builds them. Afterwards prove the crate whole, by `rt check`, and try its wrong bodies, by `rt must-fail CRATE`.

Traps:
- An answer is named after the branches that lead to its goal. Where a wrong body changes such a condition, the prover
  refuses the name and not the statement, so drop that answer. The wrong bodies of the same files are listed at the end.
- Times mean something only where the modules were checked from nothing, so check nothing else into FOLDER.
- In a function without signed numbers the kit's first attempt has no `ints`, so `search rules` gains less there than the
  list of goals says. What is written goes by the proof of the whole function.
- A run may be stopped at any time, by Ctrl-C or TERM: the prover stops with it, and each file of `proofs/` is whole."""

import argparse
import glob
import hashlib
import math
import os
import re
import shutil
import signal
import subprocess
import sys
import time
from bisect import bisect_left
from collections import defaultdict
from typing import Dict, Iterable, List, NamedTuple, Tuple

TOP = os.path.dirname(os.path.dirname(os.path.dirname(os.path.abspath(__file__))))
SOURCES = ("src", "specs", "proofs")


class Stop(Exception):
    """What keeps this tool from going on, in words."""


# ---- the kit and the crates


def kit() -> str:
    """The folder of the kit to which the command `rt` belongs."""
    found = shutil.which("rt")
    folder = os.path.dirname(os.path.dirname(os.path.realpath(found))) if found else ""
    if not os.path.isfile(os.path.join(folder, "bin", "rattle")):
        raise Stop("no kit: there is no command rt, or no rattle beside it")
    return folder


def listed() -> Dict[str, List[str]]:
    """Each crate of crates.txt with the libraries that it names."""
    crates = {}
    with open(os.path.join(TOP, "crates.txt"), encoding="utf-8") as source:
        for line in source:
            names, colon, libraries = line.partition("#")[0].partition(":")
            if colon and names.split():
                crates[names.split()[0]] = libraries.split()
    return crates


def below(crate: str, crates: Dict[str, List[str]]) -> List[str]:
    """The repository's crates below this one."""
    found, left = [], list(crates[crate])
    while left:
        library = left.pop()
        if library in crates and library not in found:
            found.append(library)
            left += crates[library]
    return found


def folder_of(crate: str, *parts: str) -> str:
    return os.path.join(TOP, "crates", crate, *parts)


class Job(NamedTuple):
    """A crate, and the folder in which its copy, the modules checked and the times are kept."""

    crate: str
    folder: str

    def source(self, *parts: str) -> str:
        return folder_of(self.crate, *parts)

    def work(self, *parts: str) -> str:
        return os.path.join(self.folder, *parts)


def command(job: Job) -> List[str]:
    """The prover's command for a check of the copy with one job."""
    crates, of_kit = listed(), kit()
    root = "main.rt" if os.path.isfile(job.source("src", "main.rt")) else "lib.rt"
    words = [of_kit + "/bin/rattle", "check", "--crate-name", job.crate, "src/" + root]
    for library in ["std"] + [name for name in crates[job.crate] if name not in crates]:
        words += ["--extern", f"{library}={of_kit}/rlibs/{library}.rlib"]
    words += ["-L", f"dependency={of_kit}/rlibs"]
    for library in below(job.crate, crates):
        rlib = folder_of(library, "out", "rlib", library + ".rlib")
        if not os.path.isdir(rlib):
            raise Stop(f"{library} isn't built: run rt check in crates/{job.crate} first")
        words += ["-L", "dependency=" + os.path.dirname(rlib)]
        words += ["--extern", f"{library}={rlib}"] * (library in crates[job.crate])
    words += ["--antt-project", of_kit + "/rattle/logic/antt-project.json", "--logic-built", of_kit + "/logic_built"]
    return words + ["--jobs", "1", "--incremental", job.work("checked")]


# ---- the copy of a crate


def sources(job: Job) -> str:
    """A sum of the crate's source files, by which a change shows."""
    found = hashlib.sha256()
    for part in SOURCES:
        for place, folders, names in os.walk(job.source(part)):
            folders.sort()
            for path in (os.path.join(place, name) for name in sorted(names)):
                with open(path, "rb") as source:
                    found.update(repr((os.path.relpath(path, TOP), source.read())).encode())
    return found.hexdigest()


def copy(job: Job) -> None:
    """Makes the copy what the crate is."""
    shutil.rmtree(job.work("copy"), ignore_errors=True)
    for part in SOURCES:
        if os.path.isdir(job.source(part)):
            shutil.copytree(job.source(part), job.work("copy", part))


def write(path: str, text: str) -> None:
    """Writes a file whole or not at all."""
    os.makedirs(os.path.dirname(path), exist_ok=True)
    with open(path + ".part", "w", encoding="utf-8") as out:
        out.write(text)
    os.replace(path + ".part", path)


def read(path: str) -> str:
    """The text of a file, or nothing where there is none."""
    if not os.path.exists(path):
        return ""
    with open(path, encoding="utf-8", errors="replace") as source:
        return source.read()


# ---- a run of the prover, by its processor time

Clock = List[Tuple[float, float]]  # moments, and the processor time used until then


class Module(NamedTuple):
    seconds: float
    name: str


class Run(NamedTuple):
    status: int
    said: str
    modules: List[Module]


def used(process: int) -> float:
    """The processor seconds that a process has used."""
    fields = read(f"/proc/{process}/stat").rpartition(")")[2].split()
    if not fields:
        raise Stop("no processor times: /proc isn't as on Linux")
    return (int(fields[11]) + int(fields[12])) / os.sysconf("SC_CLK_TCK")


def prove(job: Job, words: List[str]) -> Run:
    """Runs the prover on the copy, and times the modules that it checks."""
    clock: Clock = [(time.time(), 0.0)]
    with open(job.work("log"), "w", encoding="utf-8") as log:
        process = subprocess.Popen(
            command(job) + words, cwd=job.work("copy"), stdin=subprocess.DEVNULL, stdout=log, stderr=subprocess.STDOUT
        )
        try:
            while process.poll() is None:
                clock.append((time.time(), max(used(process.pid), clock[-1][1])))
                time.sleep(0.02)
        finally:
            if process.poll() is None:
                process.terminate()
                process.wait()
    return Run(process.returncode, read(job.work("log")), timed(job.work("checked"), clock))


def at(clock: Clock, moment: float) -> float:
    """The processor time used until a moment."""
    after = bisect_left(clock, (moment, 0.0))
    if after in (0, len(clock)):
        return clock[min(after, len(clock) - 1)][1]
    (begun, least), (ended, most) = clock[after - 1], clock[after]
    return least + (most - least) * (moment - begun) / (ended - begun)


def timed(folder: str, clock: Clock) -> List[Module]:
    """The modules whose files were written by a run, each with the time since the one before."""
    written = []
    for place, _, names in os.walk(folder):
        for name in names:
            moment = os.stat(os.path.join(place, name)).st_mtime
            if name.endswith(".oantt") and moment > clock[0][0]:
                written.append((moment, name))
    found, last = [], 0.0
    for moment, name in sorted(written):
        now = at(clock, moment)
        found.append(Module(now - last, re.sub(r"(\.decls)?\.oantt$", "", name)))
        last = now
    return found


# ---- the times of a crate


def kind(name: str) -> str:
    """What kind of module this is, by its name."""
    found = re.match(r"Rattle-\w+-(specs|proofs)\.(.*)", name)
    if not found:
        return "loading"
    parts = found[2].split(".")
    if found[1] == "specs":
        return "contracts"
    if parts[-1] in ("Lts", "Proof"):
        return parts[-1]
    if parts[-1] in ("Answers", "Invariants") or parts[-2:-1] == ["Answers"]:
        return "answers"
    is_file = len(parts) == 1 and parts[0][:1].isupper() and parts[0] not in ("TheLink", "TheLinks")
    return "lemmas" if is_file else "small"


KINDS = {
    "Lts": "the steps of each function's code (Lts)",
    "Proof": "goals that no file answers (Proof)",
    "small": "small modules of functions",
    "loading": "loading, and what comes before the first module",
    "lemmas": "lemmas",
    "answers": "answers and invariants",
    "contracts": "contracts and definitions",
}


def owner(name: str) -> str:
    """The function, or else the module, to which a module belongs."""
    path = re.sub(r"^Rattle-\w+-(specs\.(contracts|declared)|specs|proofs)\.", "", name)
    return re.sub(r"(\.[A-Z][\w-]*)+$", "", path)


def spelled(function: str) -> str:
    """A function as Rattle spells it."""
    return function.replace(".", "::")


def sums(modules: Iterable[Module]) -> Dict[Tuple[str, str], float]:
    """The seconds of each function by kind."""
    found: Dict[Tuple[str, str], float] = defaultdict(float)
    for module in modules:
        found[owner(module.name), kind(module.name)] += module.seconds
    return found


def kept(path: str) -> List[Module]:
    """The times that an earlier check left."""
    rows = [line.split(" ") for line in read(path).splitlines()]
    if any(len(row) != 2 or not re.fullmatch(r"-?\d+\.\d+", row[0]) for row in rows):
        raise Stop(f"{path} isn't a list of times: add --anew")
    return [Module(float(seconds), name) for seconds, name in rows]


def times_of(job: Job) -> List[Module]:
    """The times that were taken of the crate as it is now."""
    if not os.path.exists(job.work("times")):
        again = " --anew" * os.path.exists(job.work("crate"))
        raise Stop(f"{job.crate} isn't timed there: run.py times {job.crate} {job.folder}{again}")
    if read(job.work("sources")) != sources(job):
        raise Stop(f"{job.crate} has changed since it was timed: run.py times {job.crate} {job.folder} --anew")
    return kept(job.work("times"))


def take_times(job: Job) -> None:
    """Checks a crate from nothing and keeps the times, with those before."""
    command(job)
    write(job.work("crate"), job.crate + "\n")
    if os.path.exists(job.work("times")):
        os.replace(job.work("times"), job.work("times.before"))
    shutil.rmtree(job.work("checked"), ignore_errors=True)
    write(job.work("sources"), sources(job))
    copy(job)
    run = prove(job, [])
    if run.status or not re.search(r"^logic=proved ", run.said, re.M):
        raise Stop(f"{job.crate} isn't proved, by {job.work('log')}")
    write(job.work("times"), "".join(f"{module.seconds:.3f} {module.name}\n" for module in run.modules))


def by_kind(modules: Iterable[Module]) -> Dict[str, float]:
    found: Dict[str, float] = defaultdict(float)
    for module in modules:
        found[kind(module.name)] += module.seconds
    return found


def show_kinds(modules: List[Module], before: List[Module]) -> None:
    """The share of each kind, and what it was before where that is known."""
    now, then = by_kind(modules), by_kind(before)
    whole = sum(now.values()) or 1.0
    for name, text in KINDS.items():
        earlier = f"  before {then[name]:7.1f} s" if before else ""
        print(f"{now[name]:7.1f} s {100 * now[name] / whole:3.0f}%{earlier}  {text}")
    print(f"{sum(now.values()):7.1f} s     " + (f"  before {sum(then.values()):7.1f} s" if before else "") + "  in all")


def show_slowest(modules: List[Module], count: int = 12) -> None:
    """The slowest functions, and those whose goals without an answer take longest."""
    by_owner: Dict[str, Dict[str, float]] = defaultdict(dict)
    for (function, name), seconds in sums(modules).items():
        if name != "loading":
            by_owner[function][name] = seconds
    print("\nfunctions:")
    for function, parts in sorted(by_owner.items(), key=lambda row: -sum(row[1].values()))[:count]:
        most = sorted(parts.items(), key=lambda row: -row[1])[:3]
        shares = ", ".join(f"{name} {seconds:.1f}" for name, seconds in most if seconds >= 0.05)
        print(f"{sum(parts.values()):7.1f} s  {spelled(function)}: {shares}")
    print("\ngoals without an answer:")
    proofs = {function: parts["Proof"] for function, parts in by_owner.items() if parts.get("Proof", 0.0) >= 0.05}
    for function, seconds in sorted(proofs.items(), key=lambda row: -row[1])[:count]:
        print(f"{seconds:7.1f} s  {spelled(function)}")


# ---- attempts at goals

FIRST = "search (ints, rules)"
PLAIN = "search rules"
STEPS = "grind (arith, common_steps)"
ELEMENTS = "grind (arith, elements)"
SOURCE_OF = {
    "rules": "Rattle.std.proofs.Common",
    "arith": "Rattle.std.proofs.Common",
    "ints": "borrow.Author.Differences",
    "common_steps": "Rattle.std.proofs.lemmas.Grind",
    "elements": "Rattle.std.proofs.lemmas.Grind",
}


class Goal(NamedTuple):
    function: str  # with dots, as in names of modules
    name: str
    binders: str


class Result(NamedTuple):
    seconds: float
    closes: bool


Results = Dict[Tuple[Goal, str], Result]


def only(functions: Iterable[str]) -> List[str]:
    words = []
    for function in dict.fromkeys(functions):
        words += ["--only", spelled(function)]
    return words


def proof_file(folder: str, function: str, name: str) -> str:
    return os.path.join(folder, "proofs", *function.split("."), name)


def goals_of(job: Job, functions: List[str]) -> List[Goal]:
    """The goals of functions that have no answer yet, as the prover offers them."""
    shutil.rmtree(job.work("offered"), ignore_errors=True)
    words = ["--generated", job.work("offered")]
    for function in functions:
        words += ["--start", spelled(function)]
    run = prove(job, words)
    found = []
    for function in functions:
        path = os.path.join(job.work("offered"), f"Rattle-{job.crate}-proofs", *function.split("."), "AnswersOffered.antt")
        if not os.path.exists(path):
            raise Stop(f"no goals of {spelled(function)} (status {run.status}), by {job.work('log')}")
        given = re.findall(r"^pub (\S+)\s+:", read(proof_file(job.source(), function, "Answers.antt")), re.M)
        for name, binders in re.findall(r"^pub (\S+) :\s+goal\.\S+\s+\1\s+([^=?]*?)\s*=\s*\?", read(path), re.M):
            if name not in given:
                found.append(Goal(function, name, binders))
    return found


def imports(text: str, job: Job, function: str, tactics: Iterable[str]) -> str:
    """A file of proofs with the imports that these attempts need."""
    if not re.search(r"^use \S+\.Goals as goal$", text, re.M):
        text = f"use Rattle.{job.crate}.proofs.{function}.Goals as goal\n" + text
    for word in sorted({word for tactic in tactics for word in re.findall(r"\w+", tactic) if word in SOURCE_OF}):
        line = re.search(rf"^use {re.escape(SOURCE_OF[word])}\.\{{([^}}]*)\}}", text, re.M)
        if not line:
            text = f"use {SOURCE_OF[word]}.{{{word}}}\n" + text
        elif word not in [name.strip() for name in line[1].split(",")]:
            text = text[: line.start(1)] + line[1].rstrip() + ", " + word + text[line.end(1) :]
    return text


def place_attempts(job: Job, function: str, attempts: List[Tuple[str, Goal, str]]) -> None:
    """Gives each attempt at a function's goals a module, and each goal the first as its answer. A hole comes before them:
    it takes the time of loading, and keeps the prover from the function's proof."""
    goal = attempts[0][1]
    hole = (attempts[0][0] + "hole", goal, "?")
    top, answers, seen = "", "", set()
    for name, goal, tactic in [hole] + attempts:
        body = f"\npub t{name} : goal.{goal.name}\nt{name} {goal.binders} = {tactic}\n"
        write(proof_file(job.work("copy"), function, f"Answers/T{name}.antt"), imports("", job, function, [tactic]) + body)
        top += f"mod T{name}\nuse Rattle.{job.crate}.proofs.{function}.Answers.T{name}.{{t{name}}}\n"
        if tactic != "?" and goal not in seen:
            seen.add(goal)
            answers += f"\npub {goal.name} : goal.{goal.name}\n{goal.name} = t{name}\n"
    path = proof_file(job.work("copy"), function, "Answers.antt")
    write(path, top + imports(read(path), job, function, []) + answers)


def tried(job: Job, attempts: List[Tuple[Goal, str]]) -> Results:
    """What each attempt takes, and whether it closes its goal. The names are new in each run, so that nothing is kept."""
    if not attempts:
        return {}
    stamp = time.time_ns() // 1_000_000
    named = {f"{stamp}x{number}": attempt for number, attempt in enumerate(attempts)}
    for function in dict.fromkeys(goal.function for goal, _ in attempts):
        place_attempts(job, function, [(name, *attempt) for name, attempt in named.items() if attempt[0].function == function])
    run = prove(job, only(goal.function for goal, _ in attempts) + ["--allow-holes"])
    copy(job)
    refused = set(re.findall(r"/T(\w+)\.antt:\d+:\d+: error", run.said))
    refused |= set(re.findall(r"/T(\w+)\.antt:\d+:\d+: `t\w+` is not admitted", run.said))
    seconds: Dict[str, float] = defaultdict(float)
    for module in run.modules:
        seconds[module.name.rpartition(".T")[2]] += module.seconds
    if not any(name in seconds for name in named):
        raise Stop(f"no attempt was checked, by {job.work('log')}")
    return {attempt: Result(seconds[name], name not in refused) for name, attempt in named.items() if name in seconds}


def own_row(results: Results, goal: Goal) -> float:
    """What the kit's own attempts at a goal take, as far as they were tried."""
    whole = 0.0
    for tactic in (FIRST, STEPS, ELEMENTS):
        result = results.get((goal, tactic))
        if not result:
            break
        whole += result.seconds
        if result.closes:
            break
    return whole


def try_goals(job: Job, goals: List[Goal], gain: float) -> Results:
    """Tries each goal by the first attempt and without `ints`, and what stays open or slow by `grind`."""
    results = tried(job, [(goal, tactic) for goal in goals for tactic in (FIRST, PLAIN)])

    def is_quick(goal: Goal, tactic: str) -> bool:
        result = results.get((goal, tactic))
        return bool(result and result.closes and result.seconds < gain)

    slow = [goal for goal in goals if not is_quick(goal, FIRST) and not is_quick(goal, PLAIN)]
    results.update(tried(job, [(goal, tactic) for goal in slow for tactic in (STEPS, ELEMENTS)]))
    return results


def closing(results: Results, goal: Goal) -> List[Tuple[float, str]]:
    """The attempts that may be written and close a goal, fastest first."""
    found = [(results[goal, tactic], tactic) for tactic in (PLAIN, STEPS, ELEMENTS) if (goal, tactic) in results]
    return sorted((result.seconds, tactic) for result, tactic in found if result.closes)


def choose(goals: List[Goal], results: Results, gain: float) -> Dict[str, List[Tuple[Goal, str]]]:
    """The attempts that close their goals sooner than the kit's row, by function. Prints the slow goals."""
    chosen: Dict[str, List[Tuple[Goal, str]]] = defaultdict(list)
    print("\nslow goals, by the kit's row and by the best attempt:")
    for goal in sorted(goals, key=lambda goal: -own_row(results, goal)):
        row, best = own_row(results, goal), closing(results, goal)[:1]
        if row >= gain:
            found = f"{best[0][0]:7.2f} s  {best[0][1]}" if best else "     open"
            print(f"{row:7.2f} s {found}: {spelled(goal.function)} {goal.name}")
        if best and row - best[0][0] >= gain:
            chosen[goal.function].append((goal, best[0][1]))
    return chosen


# ---- answers


def answered(job: Job, function: str, chosen: List[Tuple[Goal, str]]) -> str:
    """A function's file of answers with the chosen ones."""
    text = read(proof_file(job.source(), function, "Answers.antt"))
    text = imports(text, job, function, [tactic for _, tactic in chosen])
    for goal, tactic in chosen:
        text = text.rstrip("\n") + f"\n\npub {goal.name} : goal.{goal.name}\n{goal.name} {goal.binders} = {tactic}\n"
    return text


def paying(job: Job, chosen: Dict[str, List[Tuple[Goal, str]]], before: Dict[str, float], gain: float) -> List[str]:
    """The functions that are proved, and faster, with the chosen answers."""
    for function, answers in chosen.items():
        write(proof_file(job.work("copy"), function, "Answers.antt"), answered(job, function, answers))
    run = prove(job, only(chosen))
    copy(job)
    now, found, anew = goal_seconds(run.modules), [], sums(run.modules)
    print("\nfunctions with these answers:")
    for function in chosen:
        name = spelled(function)
        is_proved = re.search(rf"^fn {job.crate}::{re.escape(name)}: proved", run.said, re.M)
        pays = bool(is_proved) and (function, "Proof") in anew and before[function] - now[function] >= gain
        found += [function] * pays
        print(f"{before[function]:7.1f} s before, {now[function]:.1f} s now  {name}" + ("" if pays else ", left out"))
    return found


def goal_seconds(modules: List[Module]) -> Dict[str, float]:
    """What the goals of each function take, with answers and without."""
    found: Dict[str, float] = defaultdict(float)
    for (function, name), seconds in sums(modules).items():
        found[function] += seconds * (name in ("Proof", "answers"))
    return found


def slow_functions(job: Job, modules: List[Module], least: float, named: List[str]) -> List[str]:
    """The functions to look at, slowest goals first."""
    proofs = {function: seconds for (function, name), seconds in sums(modules).items() if name == "Proof"}
    wanted = [name.replace("::", ".") for name in named]
    for name in wanted:
        if name not in proofs:
            raise Stop(f"{job.crate} has no function {spelled(name)} with goals")
    found = wanted or [function for function, seconds in proofs.items() if seconds >= least]
    plain = [function for function in found if re.fullmatch(r"[\w.]+", function)]
    plain = [function for function in plain if not os.path.exists(proof_file(job.source(), function, "Proof.antt"))]
    return sorted(dict.fromkeys(plain), key=lambda function: -proofs[function])


def show_wrong_bodies(job: Job, functions: List[str]) -> None:
    """The wrong bodies of the files whose functions got answers."""
    parts = [function.split(".") for function in functions]
    files = {"src/" + "/".join(path[:depth]) + ".rt" for path in parts for depth in range(1, len(path))}
    for place in (f"crates/{job.crate}/must-fail", f"bench/wrong_bodies/{job.crate}"):
        for path in sorted(glob.glob(os.path.join(TOP, place, "*.edit"))):
            file = re.search(r"^file: (.*)$", read(path), re.M)
            if file and file[1].strip() in files:
                print(f"try the wrong body {os.path.relpath(path, TOP)}: it changes {file[1].strip()}")


def write_answers(job: Job, least: float, gain: float, named: List[str]) -> None:
    modules = times_of(job)
    how = ["git", "-C", TOP, "status", "--porcelain", "--", f"crates/{job.crate}/proofs"]
    if subprocess.run(how, capture_output=True, text=True, check=True).stdout:
        raise Stop(f"crates/{job.crate}/proofs has changes: commit them, so that the answers can be undone")
    copy(job)
    functions = slow_functions(job, modules, least, named)
    goals = goals_of(job, functions) if functions else []
    print(f"functions: {len(functions)}, their goals without an answer: {len(goals)}", flush=True)
    chosen = choose(goals, try_goals(job, goals, gain), gain) if goals else {}
    paid = paying(job, chosen, goal_seconds(modules), gain) if chosen else []
    if not paid:
        print("no answer pays: nothing is written")
        return
    if read(job.work("sources")) != sources(job):
        raise Stop(f"{job.crate} has changed meanwhile: nothing is written")
    for function in paid:
        write(proof_file(job.source(), function, "Answers.antt"), answered(job, function, chosen[function]))
    print(f"\n{sum(len(chosen[function]) for function in paid)} answers written: prove {job.crate} whole, with rt check")
    show_wrong_bodies(job, paid)


# ---- calls


def duration(text: str) -> float:
    value = float(text)
    if not 0 <= value < math.inf:
        raise ValueError(text)
    return value


def call() -> argparse.Namespace:
    """The words of the call."""
    usage = "\n".join((__doc__ or "").split("\n")[2:4]).replace("usage: ", "")
    parser = argparse.ArgumentParser(usage=usage)
    verbs = parser.add_subparsers(dest="verb", required=True)
    times, answers = (verbs.add_parser(name, usage=usage) for name in ("times", "answers"))
    for verb in (times, answers):
        verb.add_argument("crate")
        verb.add_argument("folder")
    times.add_argument("--anew", action="store_true")
    answers.add_argument("--least", type=duration, default=1.0)
    answers.add_argument("--gain", type=duration, default=0.3)
    answers.add_argument("functions", nargs="*")
    words, more = parser.parse_known_args()  # functions may come after options
    if any(word.startswith("-") or words.verb == "times" for word in more):
        parser.error("not understood: " + " ".join(more))
    if more:
        words.functions += more
    return words


def job_of(crate: str, folder: str) -> Job:
    """The crate and the folder, where both may be used."""
    if crate not in listed() or not os.path.isdir(folder_of(crate, "src")):
        raise Stop(f"crates.txt has no crate {crate}")
    job = Job(crate, os.path.realpath(folder))
    if os.path.commonpath([job.folder, TOP]) == TOP:
        raise Stop("the folder is inside the repository, where rt stops at sources that no check reads: name one outside")
    is_new = not os.path.lexists(folder) or (os.path.isdir(folder) and not os.listdir(folder))
    if not is_new and read(job.work("crate")) != crate + "\n":
        raise Stop(f"{folder} is there, and not for {crate}: name a new folder")
    return job


def do(words: argparse.Namespace) -> None:
    job = job_of(words.crate, words.folder)
    if words.verb == "answers":
        write_answers(job, words.least, words.gain, words.functions)
        return
    if words.anew or not os.path.exists(job.work("crate")):
        take_times(job)
    modules = times_of(job)
    show_kinds(modules, kept(job.work("times.before")))
    show_slowest(modules)


def stop_cleanly(*_: object) -> None:
    raise KeyboardInterrupt


def main() -> int:
    words = call()
    signal.signal(signal.SIGTERM, stop_cleanly)
    if sys.stdout is None:  # a closed output
        sys.stdout = open(os.devnull, "w", encoding="utf-8")
    sys.stdout.reconfigure(errors="backslashreplace")  # type: ignore[union-attr]
    try:
        do(words)
        sys.stdout.flush()
        return 0
    except KeyboardInterrupt:
        why = "stopped"
    except (Stop, OSError, ValueError, subprocess.CalledProcessError) as fault:
        why = str(fault)
    print(f"run.py: {why}", file=sys.stderr)
    os.dup2(os.open(os.devnull, os.O_WRONLY), 1)  # what is left to print may have no reader
    return 1


if __name__ == "__main__":
    sys.exit(main())
