#!/usr/bin/env python3
"""Checks the pages: links and anchors, names in backticks, quoted definitions, command blocks with their outputs, each
row of the tables of PROVED (definitions, files, clauses, proofs and tests that it names, and its length), that some row
names each clause of a public function (`clauses.py` lists which row does), that each wrong body still fits its file, that
the contracts come to each definition (`uncited.py` lists those to which none does), that MODEL names every module of
definitions and has the promise and its counts as their scripts print them, that the manual's quick reference is whole and
has below the right heading the word by which a statistician looks for the answer to each question of `questions.txt`, and
the number of words of README. Blocks that call a companion (`argus start`, ..) or several jobs at a time are run
in a copy of their example, where the built programs are at hand as out/argus and out/cells; else a line says how many were
left out. Prints what it finds, a line for each fault, and at last `pages: N faults`."""

import functools
import os
import re
import shutil
import subprocess
import sys
import tempfile

sys.dont_write_bytecode = True
import behind
import clauses
import promise
import uncited
import wrong_bodies

TOP = os.path.dirname(os.path.dirname(os.path.dirname(os.path.abspath(__file__))))
PAGES = ["README.md", "docs/MANUAL.md", "docs/PROVED.md", "docs/MODEL.md", "docs/ARCHITECTURE.md", "docs/DECISIONS.md",
         "bench/README.md", "bench/WRONG_BODIES.md", "examples/first/README.md", "built/README.md"]
MOST_WORDS_OF_README = 1000
MOST_WORDS_OF_ROW = 60
faults = 0
left_out = 0


def fault(page, text):
    global faults
    faults += 1
    print(f"{page}: {text}")


def read(path):
    with open(os.path.join(TOP, path), encoding="utf-8") as file:
        return file.read()


def files_of_tree():
    names = subprocess.run(["git", "-C", TOP, "ls-files", "--cached", "--others", "--exclude-standard"], capture_output=True, text=True, check=True).stdout
    return [name for name in names.split("\n") if name and os.path.exists(os.path.join(TOP, name))]


FILES = files_of_tree()


# ---- links

def anchor(heading):
    return re.sub(r"[^\w\- ]", "", heading.strip().lower()).replace(" ", "-")


def without_blocks(text):
    return re.sub(r"^```.*?^```", "", text, flags=re.M | re.S)


def anchors_in(page):
    return {anchor(re.sub(r"[`*]", "", h)) for h in re.findall(r"^#{1,6} (.*)$", without_blocks(read(page)), re.M)}


def check_links(page):
    for target in re.findall(r"\]\(([^)\s]+)\)", without_blocks(read(page))):
        if target.startswith("http"):
            continue
        path, _, place = target.partition("#")
        file = os.path.normpath(os.path.join(os.path.dirname(page), path)) if path else page
        if not os.path.exists(os.path.join(TOP, file)):
            fault(page, f"link to {target}: no such file")
        elif place and place not in anchors_in(file):
            fault(page, f"link to {target}: no such heading")


# ---- names

# What stands for a folder of proofs, and for several crates.
PLACEHOLDERS = {"m/f/", "tests_*"}
# What stood when bugs were planted.
NAMES_OF_THEN = {"is_small", "two_to_nine_puts"}


def words_of_tree():
    words = set()
    for name in FILES:
        words.update(re.findall(r"\w+", name))
        if re.search(r"\.(rt|antt|edit|py|sh|R|txt|job|rda|hst|hrc|cdl|asc|csv|cert|expected)$", name) or name in ("argus", "examples/try", "bench/limits/run"):
            try:
                words.update(re.findall(r"\w+", read(name)))
            except UnicodeDecodeError:
                pass
    return words


def check_names(page, words):
    for name in set(re.findall(r"`([^`\n]+)`", without_blocks(read(page)))):
        if "/proc/" in name or "/sys/" in name or name in PLACEHOLDERS | NAMES_OF_THEN:
            continue
        if re.fullmatch(r"[\w/.+-]+/[\w/.+-]*", name) and not name.startswith(("./", "../", "/")):
            check_path(page, name)
        for word in re.findall(r"[A-Za-z]\w{3,}", name):
            if is_code(word) and word not in words and not (name.startswith("_") and any(w.endswith(name) for w in words)):
                fault(page, f"no such name: {word} (in `{name}`)")


def is_code(word):
    return "_" in word or re.search(r"[a-z][A-Z]", word)


def check_path(page, name):
    ends = [name, "crates/" + name, "docs/" + name]
    if any(f == e or f.startswith(e.rstrip("/") + "/") or f.startswith(e + ".") for f in FILES for e in ends):
        return
    if any(f"/{name}" in "/" + f for f in FILES) or name.startswith(("out/", "inside/", "a/", "n/d")) or re.fullmatch(r"\d+/\d+", name):
        return
    # a module of definitions, a file of a crate, or a folder of proofs without its crate's name
    first, _, last = name.partition("/")
    if any(f"/{first}/specs/{last}.antt" in "/" + f for f in FILES):
        return
    fault(page, f"no such path: {name}")


# ---- quoted definitions

def check_definitions(page):
    specs = "\n".join(read(f) for f in FILES if f.endswith(".antt") and "/specs/" in f)
    for block in re.findall(r"^```\n(.*?)^```", read(page), re.M | re.S):
        if " pub " not in block:
            continue
        for part in block.strip("\n").split("\n\n"):
            if part not in specs:
                fault(page, "not as in the tree: " + part.split("\n")[0][:80])


# ---- the promise, as promise.py and behind.py print it

def check_printed(page):
    text = read(page)
    if promise.printed(read("crates/job_run/specs/Promise.antt")) not in text:
        fault(page, "the promise isn't as it stands in the tree: bench/docs/promise.py prints it anew")
    if "\n".join(behind.table()) not in text:
        fault(page, "the counts aren't those of the tree: bench/docs/behind.py --write writes them anew")


# ---- command blocks

def answers_of_examples():
    answers = {}
    for folder in sorted({f.split("/")[1] for f in FILES if f.startswith("examples/") and f.count("/") == 2}):
        here = f"examples/{folder}"
        jobs = sorted(f.split("/")[2] for f in FILES if f.startswith(here + "/") and f.endswith(".job"))
        words = read(f"{here}/words.txt").split("\n") if f"{here}/words.txt" in FILES else [f"run {job}" for job in jobs]
        lines = read(f"{here}/said.txt").split("\n")
        for asked in [w for w in words if w]:
            said = [lines.pop(0)]
            if said[0].startswith("cannot protect"):
                said.append(lines.pop(0))
            answers.setdefault(asked, set()).add("\n".join(said))
    return answers


def bytes_of(name):
    found = []
    for f in FILES:
        if re.fullmatch(rf"examples/\w+/{re.escape(name)}(\.expected)?", f):
            found.append(read(f))
    return found


def outputs_of(command):
    """What a command of the pages may print, by the examples; None where it isn't known."""
    words = command.split()
    if words[:1] == ["cat"]:
        return bytes_of(words[1])
    if words[:1] == ["head"]:
        return ["".join(t.splitlines(True)[:int(words[1][1:])]) for t in bytes_of(words[2])]
    if words[:1] == ["tail"]:
        return ["".join(t.splitlines(True)[-int(words[1][1:]):]) for t in bytes_of(words[2])]
    if words[:1] == ["grep"]:
        return grep(words[1:])
    if words[:1] == ["awk"]:
        return awk(command)
    if words[:2] == ["../../argus", "cells"]:
        return listing(command)
    return None


def listing(command):
    """The listing of a job's cells in each example, with what else is asked for, or what awk or sed prints of it."""
    asked, _, further = command.partition(" | ")
    words = asked.split()
    option = next((it[2:] for it in ("--intervals", "--released", "--relations") if it in words), "cells")
    name = words[2].replace(".job", "." + option)
    if further:
        return awk(f"cat {name} | {further}")
    return [""] if ">" in asked else bytes_of(name)


def awk(command):
    """What it prints in each example, with the expected files under their names."""
    printed = []
    for folder in sorted({os.path.dirname(f) for f in FILES if re.fullmatch(r"examples/\w+/[^/]+", f)}):
        with tempfile.TemporaryDirectory() as place:
            for f in [f for f in FILES if os.path.dirname(f) == folder]:
                shutil.copy(os.path.join(TOP, f), os.path.join(place, os.path.basename(f).replace(".expected", "")))
            done = subprocess.run(["sh", "-c", command], cwd=place, capture_output=True, text=True)
        if done.returncode == 0 and not done.stderr:
            printed.append(done.stdout)
    return printed


def grep(words):
    pattern, names = words[0], words[1:]
    lists = [[]]
    for name in names:
        texts = bytes_of(name)
        front = f"{name}:" if len(names) > 1 else ""
        lists = [l + [front + line for line in t.split("\n") if re.search(pattern, line)] for l in lists for t in texts]
    return ["".join(line + "\n" for line in l) for l in lists]


# A full disk (bench/real_files), and an input that the reader has changed (the same as examples/stated).
UNTRIED = {"argus run turnover.job"}
CHANGED_BY_THE_READER = {("examples/first/README.md", "../../argus run r1.job")}


def check_commands(page, answers):
    for block in re.findall(r"^```\n(.*?)^```", read(page), re.M | re.S):
        if not block.startswith("$ "):
            continue
        parts = [part.partition("\n") for part in re.split(r"^\$ ", block, flags=re.M)[1:]]
        commands = [(command.strip(), said) for command, _, said in parts]
        if any(COMPANION.match(command) for command, _ in commands):
            check_block(page, commands)
            continue
        for command, said in commands:
            check_command(page, command, said, answers)


# ---- blocks that call a companion, or several jobs at a time

PROGRAMS = ["argus", "cells"]
COMPANIONS = ["argus start", "argus explain", "argus page", "argus seal", "argus carry", "argus together", "argus whole", "outside/check"]
COMPANION = re.compile(r"(\.\./\.\./(?:" + "|".join(COMPANIONS) + r")|make|xargs|parallel) ")
# What a block of README or the manual may leave out of what it prints: a comparison of its own is in companions/tests.
QUIET = ("../../argus start ",)


def are_built():
    return all(os.path.exists(os.path.join(TOP, "out", name)) for name in PROGRAMS)


def check_block(page, commands):
    """The commands of a block print what it says in some example, one after the other, after the example's own calls."""
    global left_out
    tools = {command.split(" ")[0] for command, _ in commands} & {"make", "xargs", "parallel"}
    if not are_built() or not all(shutil.which(tool) for tool in tools):
        left_out += 1
        return
    names = set(re.findall(r"[\w.]+\.(?:job|csv|said)", " ".join(command for command, _ in commands)))
    folders = sorted({os.path.dirname(f) for f in FILES if re.fullmatch(r"examples/\w+/[^/]+", f)})
    folders = [f for f in folders if all(is_of(f, name) for name in names if not name.endswith(".said"))]
    found = [fault_of_block(folder, commands) for folder in folders]
    if None not in found:
        fault(page, found[0] if found else f"`{commands[0][0]}`: no example has {', '.join(sorted(names))}")


def is_of(folder, name):
    return f"{folder}/{name}" in FILES or f"{folder}/{name}.expected" in FILES


def fault_of_block(folder, commands):
    """What is wrong with a block in a copy of this example; None where nothing is."""
    with tempfile.TemporaryDirectory() as top:
        lay_out(top, folder)
        place = os.path.join(top, "out", "tried")
        for command, said in commands:
            if command.startswith(("mkdir", "cd ")):
                continue
            done = call(command, place)
            # start says by which way argus is called, and that is another one from here.
            printed = done.stdout.replace(TOP + "/", "../../")
            if printed != said and not (said == "" and command.startswith(QUIET)):
                return f"`{command}` prints {(printed or done.stderr).strip()[:80]!r} in {folder}, and not {said.strip()[:80]!r}"
    return None


def call(command, place):
    env = dict(os.environ, ARGUS_BUILD="0", ARGUS_EXPLAIN="0", PYTHONDONTWRITEBYTECODE="1")
    return subprocess.run(["sh", "-c", command], cwd=place, env=env, capture_output=True, text=True)


def lay_out(top, folder):
    """A folder out/tried with the example's inputs, two levels below calls of the repository's programs, and the example's own calls made."""
    place = os.path.join(top, "out", "tried")
    os.makedirs(place)
    os.makedirs(os.path.join(top, "outside"))
    for name in ("argus", "outside/check"):
        with open(os.path.join(top, name), "w", encoding="utf-8") as file:
            file.write(f'#!/bin/sh\nexec "{TOP}/{name}" "$@"\n')
        os.chmod(os.path.join(top, name), 0o755)
    inputs = [f for f in FILES if os.path.dirname(f) == folder and not f.endswith(".expected")]
    for f in inputs:
        shutil.copy(os.path.join(TOP, f), place)
    jobs = sorted(os.path.basename(f) for f in inputs if f.endswith(".job"))
    asked = read(f"{folder}/words.txt").split("\n") if f"{folder}/words.txt" in FILES else [f"run {job}" for job in jobs]
    for words in [w for w in asked if w]:
        call(f"../../argus {words}", place)


def check_command(page, command, said, answers):
    if command in UNTRIED or command == "rt ci" or command.startswith(("mkdir", "cd ")):
        return
    asked = re.fullmatch(r"(?:\.\./\.\./)?argus (?!cells )(.*)", command)
    if asked and (page, command) in CHANGED_BY_THE_READER:
        return
    if asked:
        if said.rstrip("\n") not in answers.get(asked[1], set()):
            fault(page, f"`{command}` isn't tried with this answer: {said.strip()}")
        return
    known = outputs_of(command)
    if known is None:
        fault(page, f"`{command}` isn't tried")
    elif said not in known:
        fault(page, f"`{command}` prints something else than {said.strip()[:60]}")


# ---- the table of PROVED, and the modules that MODEL names

@functools.cache
def clauses_of(crate):
    """For each function of a crate the names of its clauses."""
    clauses = {}
    for f in FILES:
        if not re.fullmatch(rf"crates/{crate}/src/\w+\.rt", f):
            continue
        for head in re.split(r"^\s*(?=(?:pub(?:\(\w+\))? )?fn )", read(f), flags=re.M)[1:]:
            name = re.match(r"(?:pub(?:\(\w+\))? )?fn (\w+)", head)
            if name:
                clauses.setdefault(name[1], set()).update(re.findall(r"\bensures\*? (\w+) \{", head))
    return clauses


def check_proved(page):
    tests = {os.path.basename(f)[:-3] for f in FILES if f.endswith(".rt")}
    for section in re.split(r"^## ", read(page), flags=re.M)[1:]:
        crates = re.findall(r"`(\w+)`", section.split("\n")[0])
        rows = [[c.strip() for c in re.split(r"(?<!\\)\|", row[1:-1])] for row in re.findall(r"^\| .*\|$", section, re.M)]
        for row in [r for r in rows if len(r) >= 5 and r[0] != "Promise"]:
            check_row(page, crates, row, tests)


def check_row(page, crates, row, tests):
    for name in re.findall(r"`([\w/]+)`", row[1]):
        homes = [name.split("/")[0]] if "/" in name else crates
        if not any(f"crates/{c}/specs/{name.split('/')[-1]}.antt" in FILES for c in homes):
            fault(page, f"no such definitions: {name}")
    for name in re.findall(r"`(\w+\.rt)`", row[2]):
        if not any(f"crates/{c}/src/{name}" in FILES for c in crates):
            fault(page, f"no such file: {name}")
    for name in re.findall(r"`([+\w]+/[+\w]+)`", row[3]):
        homes = crates + ["sdc_base"]
        if not any(f.startswith(f"crates/{c}/proofs/{name}/") for f in FILES for c in homes):
            fault(page, f"no such proof: {name}")
    for name in re.findall(r"`(\w+_tests)`", row[4]):
        if name not in tests:
            fault(page, f"no such tests: {name}")
    check_clauses(page, crates + ["sdc_base", "office_io"], row[2])


def check_clauses(page, crates, text):
    """The clauses that a column of calls lists are there, each as one of the functions that it is listed behind."""
    known = {c: clauses_of(c) for c in crates}
    for part in text.split(";"):
        named = clauses.named_in(part)
        names = sorted({name for name, _ in named})
        found = set().union(*[known[c].get(n.split("::")[-1], set()) for c in crates for n in names])
        for clause in sorted({clause for _, clause in named} - {clauses.PLAIN} - found):
            fault(page, f"no such clause: {clause} of {', '.join(names)}")
        # the parts of a clause that is a record
        for part_of_record in re.findall(r"[a-z_]+", " ".join(re.findall(r"\(([a-z_, ]+)\)", part))):
            if part_of_record not in fields_of(crates[0]):
                fault(page, f"no such part of a clause: {part_of_record} of {', '.join(names)}")


@functools.cache
def fields_of(crate):
    """The fields of the records that a crate defines."""
    specs = [read(f) for f in FILES if f.startswith(f"crates/{crate}/specs/") and f.endswith(".antt")]
    return set(re.findall(r"^  pub (\w+) :", "\n".join(specs), re.M))


def check_promises(page):
    """Each clause of a public function is named by a row, and each row is short."""
    for clause in clauses.unnamed():
        fault(page, f"no row names {clause}")
    for row in re.findall(r"^\| .*\|$", read(page), re.M):
        count = len(row.replace("|", " ").split())
        if count > MOST_WORDS_OF_ROW:
            fault(page, f"a row of {count} words, and {MOST_WORDS_OF_ROW} are allowed: {row[:60]}")


def check_modules(page):
    text = read(page)
    for f in FILES:
        module = re.fullmatch(r"crates/(\w+)/specs/(\w+)\.antt", f)
        if module and module[2] != "Lib" and not re.search(rf"`(\w+/specs/)?{module[2]}`", text):
            fault(page, f"no entry for {module[1]}/specs/{module[2]}")


MANY = "examples/many"
# Stands for Airflow: a DAG made with it prints the commands of its tasks.
AIRFLOW = """
import contextlib, sys, types
def module(name, **its):
    sys.modules[name] = types.ModuleType(name)
    sys.modules[name].__dict__.update(its)
module("pendulum", datetime=lambda *day: day)
module("airflow", DAG=lambda name, **its: contextlib.nullcontext())
module("airflow.operators")
module("airflow.operators.bash", BashOperator=lambda task_id, cwd, bash_command, retries: print(bash_command))
"""


def commands_of_dag(section):
    """The commands that the DAG of the chapter calls, one after the other, with the program two levels above the folder."""
    dag = re.search(r"^```\n(import pendulum.*?)^```", section, re.M | re.S)
    done = subprocess.run([sys.executable, "-c", AIRFLOW + dag[1]], capture_output=True, text=True)
    return " ; ".join(done.stdout.replace("~/argus/argus", "../../argus").split("\n")[:-1])


def check_many(page):
    """The chapter on many jobs: its Makefile is that of the example, and each way to run three jobs that is at hand gives their answers."""
    section = section_of(read(page), "## Many jobs, many machines")
    rules = read(f"{MANY}/Makefile").split("\n", 1)[1]
    if f"```\n{rules}```" not in section:
        fault(page, f"the Makefile isn't that of {MANY}")
    if not are_built():
        return
    ways = [way.replace("make -k", "make -s -k") for way in re.findall(r"^\| [^|]* \| `((?:make|xargs|parallel) [^`]*)`", section, re.M)]
    ways = [way for way in ways if shutil.which(way.split(" ")[0])]
    for way in ways + [" && ".join(f"SLURM_ARRAY_TASK_ID={number} sh array.sh" for number in (1, 2, 3)), commands_of_dag(section)]:
        with tempfile.TemporaryDirectory() as top:
            lay_out(top, MANY)
            place = os.path.join(top, "out", "tried")
            call(way, place)
            said = call("cat q1.said q2.said q3.said | grep -v accepted", place).stdout
        if said != read(f"{MANY}/said.txt"):
            fault(page, f"`{way}` gives other answers: {said.strip()[:80]!r}")


# ---- the words by which a statistician looks for something

# A line for each question of a statistician: the question, the word to search for, and the heading under which the answer is.
QUESTIONS = "bench/docs/questions.txt"


def plain(text):
    """The words of a text in small letters, without marks and breaks of lines."""
    return re.sub(r"[\s*`]+", " ", text).lower()


def check_wrong_bodies(page):
    """Each wrong body fits its file, and the pages have the number of those that the gate tries, and of the others."""
    for name, why in wrong_bodies.unfit(TOP):
        fault(name, why)
    tried, others = wrong_bodies.counts(TOP)
    if f"time, {tried} in all. The other {others} are in" not in read(page):
        fault(page, f"doesn't say that the gate tries {tried} wrong bodies, and that there are {others} others")
    if f"| {others} wrong bodies by crate" not in read("bench/README.md"):
        fault("bench/README.md", f"doesn't say that there are {others} wrong bodies outside the gate")


def check_cited():
    """Some contract comes to each definition."""
    for name in uncited.uncited():
        fault(name, "no contract comes to this definition")


def check_questions(page):
    """Each question's word is below the heading where its answer is, and in the glossary or the index of words."""
    text = read(page)
    headings = {re.sub(r"`", "", line.lstrip("# ")): line for line in re.findall(r"^#{2,4} .*$", without_blocks(text), re.M)}
    listed = plain(section_of(text, "## Glossary") + section_of(text, "## Index of words"))
    for question, word, heading in [line.split("|") for line in read(QUESTIONS).split("\n") if line and not line.startswith("#")]:
        if heading not in headings:
            fault(page, f"has no heading '{heading}', where '{question}' is answered")
        elif word.lower() not in plain(headings[heading] + "\n" + section_of(text, headings[heading])):
            fault(page, f"a reader who asks '{question}' doesn't find '{word}' below '{heading}'")
        if word.lower() not in listed:
            fault(page, f"a reader who asks '{question}' doesn't find '{word}' in the glossary or the index")


def section_of(text, heading):
    """What stands below a heading, up to the next one of its level or above; lines of blocks are no headings."""
    level = len(heading.split(" ")[0])
    kept, inside = [], False
    for line in text.partition(f"\n{heading}\n")[2].split("\n"):
        inside ^= line.startswith("```")
        if not inside and re.match(rf"#{{1,{level}}} ", line):
            break
        kept.append(line + "\n")
    return "".join(kept)


def check_reference(page):
    """The quick reference has every command of a job, every keyword of metadata and of an a priori file, and every word of argus."""
    text = read(page)
    reference = section_of(text, "## Quick reference")
    for heading in ("### Commands of a job", "### Keyword lines", "### Lines of an a priori file"):
        listed = re.findall(r"^\| (`[^|]*`) \|", section_of(text, heading), re.M)
        for name in re.findall(r"`(<?\w+>?)`", " ".join(listed)):
            bare = name.strip("<>")
            if not re.search(rf"<{bare}>" if name != bare else rf"`{bare}[`,]", reference) and bare != "RECODABLE":
                fault(page, f"the quick reference lacks {name} of {heading.strip('# ')}")
    usage = re.search(r"usage: argus ([^`]*)`", text)
    for word in re.findall(r"\b[a-z]+\b", usage[1].replace("\\", "")):
        if f"`argus {word} " not in reference:
            fault(page, f"the quick reference lacks argus {word}")


# Words of sentences that were wrong or unclear once: they aren't to come back.
GONE = ["beside its inputs", "beside those that it reads", "twenty to forty minutes", "whoever", "hang together", "once more", "a rule names a cell", "a rule names the cell",
        "the microdata have", "was lent", "want of memory", "reasons back"]


def check_gone(page):
    text = plain(without_blocks(read(page)))
    for words in GONE:
        if words in text:
            fault(page, f"has '{words}' again")


def main():
    words = words_of_tree()
    answers = answers_of_examples()
    for page in PAGES:
        if page not in FILES:
            fault(page, "no such page")
            continue
        check_links(page)
        check_names(page, words)
        check_commands(page, answers)
    check_definitions("docs/MODEL.md")
    check_printed("docs/MODEL.md")
    check_modules("docs/MODEL.md")
    check_proved("docs/PROVED.md")
    check_promises("docs/PROVED.md")
    check_many("docs/MANUAL.md")
    check_questions("docs/MANUAL.md")
    check_wrong_bodies("bench/WRONG_BODIES.md")
    check_cited()
    check_reference("docs/MANUAL.md")
    for page in PAGES:
        check_gone(page)
    count = len(read("README.md").split())
    if count > MOST_WORDS_OF_README:
        fault("README.md", f"{count} words, and {MOST_WORDS_OF_README} are allowed")
    if left_out:
        print(f"{left_out} blocks of commands left out: there is no out/argus, out/cells or make")
    print(f"pages: {faults} faults")
    return 1 if faults else 0


sys.exit(main())
