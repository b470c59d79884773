"""`argus explain` as it was read line by line: of the mistakes in the examples, and of jobs that
can't be protected, with what each explanation says to do carried out."""

import os
import re
import unittest
from typing import Callable, Iterator, List, Tuple

from explain_support import EXAMPLES, JOBS, Explained, Room, asked, explained, text_in
from support import ARGUS, Case, call, environment, program, put

HEADS = (
    "refused: ", "cannot protect ", "not accepted: ", "not guarded: ", "undecided: ", "no rounding"
)
# What is done to a job where no lines are printed to be saved: these of its a priori file go.
DELETED = {"01": [2], "02": [1, 2], "03": [2], "04": [1], "05": [2], "06": [1]}


def calls_of(folder: str) -> Iterator[Tuple[str, str]]:
    """Each call of an example with its answer."""
    names = sorted(os.listdir(folder))
    calls = ["run " + it for it in names if it.endswith(".job")]
    if "words.txt" in names:
        calls = text_in(os.path.join(folder, "words.txt")).split("\n")
    lines = text_in(os.path.join(folder, "said.txt")).split("\n")
    for words in [it for it in calls if it]:
        answer = [lines.pop(0)]
        if answer[0].startswith("cannot protect"):
            answer.append(lines.pop(0))
        yield words, "".join(it + "\n" for it in answer)


def delete(name: str, line: int) -> None:
    """Takes a line out of a file."""
    lines = text_in(name).split("\n")
    put(name, "\n".join(lines[:line - 1] + lines[line:]), "utf-8")


def append(name: str, line: str) -> None:
    """Adds a line to a file."""
    before = text_in(name) if os.path.exists(name) else ""
    put(name, before + line + "\n", "utf-8")


def save(said: Explained, job: str) -> None:
    """Saves the printed lines where they say, and takes out those that they replace."""
    name, text = "", "\n".join(said.lines)
    for replaced in re.findall(r"Delete the pl lines? (.*), in whose place", text):
        for file, line in reversed(re.findall(r"(\S+), line (\d+)", replaced)):
            delete(file, int(line))
    for row in said.rows:
        new = re.fullmatch(r"Save as (\S+), and add to the job: (.*)", row)
        old = re.fullmatch(r"Add to (\S+):", row)
        if new:
            name = new[1]
            append(job, new[2])
        elif old:
            name = old[1]
        else:
            append(name, row)


def remedies(number: str, said: Explained) -> List[Callable[[], None]]:
    """The ways that an explanation shows, each to be gone by itself."""
    prior = number + ".hst"

    def taken_out() -> None:
        for line in reversed(DELETED[number]):
            delete(prior, line)

    ways: List[Callable[[], None]] = [taken_out]
    if said.rows:
        ways = [lambda: save(said, number + ".job")]
    found = re.search(r"gives the rest up: (\S+) in the a priori file", "\n".join(said.lines))
    if found:
        line = found[1]
        ways.append(lambda: append(prior, line))
    return ways


class Stored(Case):
    """Explanations that are kept."""

    def test_examples(self) -> None:
        for example in ("mistakes", "more_mistakes"):
            folder, text = os.path.join(EXAMPLES, example), ""
            with Room(folder):
                for words, answer in calls_of(folder):
                    if answer.startswith(HEADS):
                        said = explained(words.split(), answer).text
                        text += "$ argus %s\n%s%s\n" % (words, answer, said)
            self.same(text, text_in(os.path.join(folder, "explained.txt")), example)

    def test_cannot_protect(self) -> None:
        """argus answers as stored; each remedy makes a release, and argus accepts it."""
        argus = program("argus")
        for number in sorted(it[:2] for it in os.listdir(JOBS) if it.endswith(".job")):
            job = number + ".job"
            with Room(JOBS):
                answer = text_in(number + ".said")
                self.same(asked(argus, ["run", job])[1], answer, job + ": the answer")
                said = explained(["run", job], answer)
                self.same(said.text, text_in(number + ".explained"), job + ": the explanation")
                self.wants(1 <= len(said.lines) <= 6, "%s: %d lines" % (job, len(said.lines)))
                for way in remedies(number, said):
                    with Room(os.getcwd()):
                        way()
                        after = asked(argus, ["run", job])[1]
                        checked = asked(argus, ["check", job])[1]
                    is_mended = after.startswith("released: ") and checked == "accepted\n"
                    self.wants(is_mended, "%s: after its remedy %s%s" % (job, after, checked))


class Command(Case):
    """The ways in which explain is called."""

    def explain(self, *words: str, text: str = "") -> Tuple[int, str, str]:
        """What the command says."""
        said = call([ARGUS, "explain", *words], ".", environment(), text)
        return said.status, said.out, said.err

    def test_ways(self) -> None:
        """With the answer on standard input, as words, or in part as either."""
        with Room(JOBS):
            answer = text_in("07.said")
            head, multipliers = answer.split("\n")[:2]
            wanted = text_in("07.explained").encode().decode("latin-1")
            for words, text in (
                (["run", "07.job"], answer), (["07.job", head, multipliers], ""),
                (["07.job", head], multipliers), (["07.job"], answer), (["07.job", answer], ""),
            ):
                self.same(self.explain(*words, text=text), (0, wanted, ""), "explain %s" % words)
            rows = "".join(it + "\n" for it in wanted.split("\n") if ",pl," in it)
            said = self.explain("--lines", "run", "07.job", text=answer)
            self.same(said, (0, rows, ""), "explain --lines")

    def test_write(self) -> None:
        """The files that mend a job protect it, and replace none."""
        count = 0
        for number in sorted({it[:2] for it in os.listdir(JOBS)}):
            with Room(JOBS):
                before = {it: text_in(it) for it in os.listdir(".")}
                job, answer = number + ".job", text_in(number + ".said")
                said = self.explain("--write", "run", job, text=answer)
                new = sorted(set(os.listdir(".")) - set(before))
                self.same({it: text_in(it) for it in before}, before, job + ": the office's files")
                if not re.search("(?m)^(Save as|Add to) ", before[number + ".explained"]):
                    self.same((said[0], new), (2, []), job + ": nothing to write")
                    continue
                count += 1
                made = number + "_mended.job"
                names = [it for it in new if it != made] + [made]
                text = "  Written: %s. Next: argus run %s\n" % (", ".join(names), made)
                self.same(said, (0, text, ""), job + ": what is written")
                after = asked(ARGUS, ["run", made])[1]
                self.wants(after.startswith("released: "), "%s: then %s" % (job, after))
                self.same(asked(ARGUS, ["check", made])[1], "accepted\n", made)
                os.remove(made)
                again = self.explain("--write", "run", job, text=answer)
                why = "  %s isn't written: it is there already.\n" % names[0]
                self.same(again, (2, why, ""), job + ": a second time")
                self.wants(not os.path.exists(made), made + " is left")
        self.wants(count > 0, "no job with lines to write")

    def test_statuses(self) -> None:
        with Room(JOBS):
            for words, status in (
                ([], 1), (["07.job", "what?"], 2), (["--help"], 0),
                (["nothing.job", "refused: record 1: Short"], 0),
                (["07.job", "cannot protect cell 99 above"], 0),
                (["07.job", "cannot protect cell 1 below from row 99", "multipliers 1 7:1"], 0),
                (["07.asc", "refused: record 1: Short"], 0),
                ([".", "refused: job line 1: BadLine"], 0),
            ):
                found = self.explain(*words)
                self.same((found[0], found[2]), (status, ""), "explain %s" % words)
                self.wants("explain couldn't" not in found[1], found[1])


if __name__ == "__main__":
    unittest.main()
