"""`argus explain` where files are damaged, drawn at random or have long lines, and of answers that
argus didn't give: one to six plain lines, the place that argus names, and nothing overwritten."""

import os
import random
import re
import time
import unittest
from typing import Dict, List, Optional, Sequence

from explain_answers import LONG, all_answers
from explain_support import EXAMPLES, JOBS, Room, asked, explained
from support import Case, content, program, put

# The jobs that are damaged: an example, and its job.
DAMAGED = (
    ("protected", "turnover.job"), ("linked", "firms.job"), ("manual", "survey.job"),
    ("stated", "stated.job"), ("rounded", "turnover.job"), ("audited", "known.job"),
    ("insider", "rest.job"),
)
COUNT = 300
PLACE = re.compile(
    r"refused: (job|metadata|record|apriori table 1|hierarchy 1|certificate) (?:line )?([1-9]\d*): "
    r"(\w+)")
# Refusals that another line has caused as much as the one that is named.
OF_TWO = ("Twice", "Clash", "SameName", "NoEnd")
RELEASED = "released: 7 records, 0 skipped, 0 passed over, 20 cells, 0 primary, 0 hidden\n"
Files = Dict[str, Optional[bytes]]


def damaged(draw: random.Random, whole: bytes, other: bytes) -> bytes:
    """A file with one damage: a byte changed, cut off there, doubled, left out, or a line moved."""
    at, size, way = draw.randrange(max(len(whole), 1)), draw.randrange(1, 40), draw.randrange(7)
    if way == 0 or not whole:
        return other
    if way == 1:
        lines = whole.split(b"\n")
        lines.insert(draw.randrange(len(lines)), lines.pop(draw.randrange(len(lines))))
        return b"\n".join(lines)
    byte = whole[at] ^ (1 << draw.randrange(8)) if way == 2 else (whole[at] + 1) % 256
    return {
        4: whole[:at],
        5: whole[:at + size] + whole[at:],
        6: whole[:at] + whole[at + size:],
    }.get(way, whole[:at] + bytes([byte]) + whole[at + 1:])


def released(argus: str, example: str, job: str) -> Dict[str, bytes]:
    """The files of an example after a run."""
    with Room(os.path.join(EXAMPLES, example)):
        asked(argus, ["run", job])
        names = [it for it in os.listdir(".") if not it.endswith((".txt", ".expected", ".md"))]
        return {it: content(it) for it in names if os.path.isfile(it)}


def here() -> Dict[str, bytes]:
    """The files of the current folder."""
    return {it: content(it) for it in os.listdir(".")}


class Damage(Case):
    """Damaged and random files, with argus's answers to them."""

    def setUp(self) -> None:
        super().setUp()
        self.argus = program("argus")

    def look(self, words: Sequence[str], answer: str, what: str) -> List[str]:
        """What explain says in the current folder: a few plain lines, and no file is changed."""
        before = here()
        try:
            said = explained(words, answer)
        except Exception as fault:  # pylint: disable=broad-except
            self.wants(False, "%s: %r" % (what, fault))
            return []
        is_plain = all("\n" not in it and it.isprintable() for it in said.lines)
        self.wants(is_plain and len(said.lines) <= 6, "%s: %s" % (what, said.lines))
        self.wants(here() == before, what + ": a file was changed")
        return said.lines

    def test_damaged(self) -> None:
        """A cause is found, at the line that argus names; with it mended argus says otherwise."""
        draw, whole = random.Random(11), {}
        for example, job in DAMAGED:
            whole[example] = released(self.argus, example, job)
        for _ in range(COUNT):
            example, job = draw.choice(DAMAGED)
            name, other = (draw.choice(sorted(whole[example])) for _ in range(2))
            before = whole[example]
            files: Files = {**before, name: damaged(draw, before[name], before[other])}
            words = ["check" if name.endswith((".cert", ".csv", ".extra")) else "run", job]
            with Room(files=files):
                status, answer = asked(self.argus, words)
                if status not in (2, 3, 4):
                    continue
                what = "%s: %s: %s" % (example, name, answer.strip())
                lines = self.look(words, answer, what)
                self.wants(bool(lines), what + ": nothing is said")
                self.wants("Nothing is wrong" not in " ".join(lines), what + ": no cause")
                self.place(lines, words, answer, before.get(name, b""), name)

    def place(
        self, lines: List[str], words: List[str], answer: str, whole: bytes, name: str
    ) -> None:
        """The line that is named, against argus's answer; and its mending."""
        named = re.match(r"(\S+), line (\d+)", lines[0]) if lines else None
        found = PLACE.match(answer)
        if found is None:
            return
        if not self.wants(named is not None, "%s: no line is named: %s" % (answer, lines)):
            return
        assert named is not None
        file, line = named[1], int(named[2])
        numbers = range(1, line + 1)
        if found[1] == "record":
            rows = content(file).split(b"\n")
            numbers = range(1, 1 + sum(1 for it in rows[:line] if it not in (b"", b"\r")))
        self.same(len(numbers), int(found[2]), "%s: %s" % (answer.strip(), lines[0]))
        now, then = content(file).split(b"\n"), whole.split(b"\n")
        is_other = file == name and len(now) == len(then) and now[line - 1] != then[line - 1]
        is_single = sum(a != b for a, b in zip(now, then)) == 1
        if is_other and is_single and found[3] not in OF_TWO:
            put(file, whole)
            self.wants(asked(self.argus, words)[1] != answer, answer + ": the same when mended")

    def test_random(self) -> None:
        """Files of random bytes in place of each file of a job."""
        draw, whole = random.Random(12), released(self.argus, "manual", "survey.job")
        for name in sorted(whole):
            for size in (0, 1, 40, 3000):
                raw = bytes(draw.choices(range(256), k=size))
                with Room(files={**whole, name: raw}):
                    answer = asked(self.argus, ["check", "survey.job"])[1]
                    self.look(["check", "survey.job"], answer, "%s, %d bytes" % (name, size))

    def test_other_answers(self) -> None:
        """Answers of every kind about jobs that didn't have them."""
        examples = os.path.join(EXAMPLES, "more_mistakes")
        for folder, job in ((JOBS, "07.job"), (JOBS, "01.job"), (examples, "16.job")):
            with Room(folder):
                for answer in all_answers():
                    self.look(["run", job], answer + "\n", "%s: %s" % (job, answer))

    def test_long_lines(self) -> None:
        """A line of 60,000 bytes at the end of each kind of file is no matter of seconds."""
        for example, job, names in (
            ("manual", "survey.job", "job asc rda cert csv cdl hrc"),
            ("stated", "stated.job", "hst"),
        ):
            files = released(self.argus, example, job)
            for name in [it for it in sorted(files) if it.split(".")[-1] in names.split()]:
                with Room(files=dict(files)):
                    for line in LONG:
                        put(name, files[name] + line + b"\n")
                        checked = asked(self.argus, ["check", job])[1]
                        for answer in (checked, RELEASED):
                            begun = time.process_time()
                            what = "%s with %r: %s" % (name, line[:20], answer.strip())
                            self.look(["check", job], answer, what)
                            took = time.process_time() - begun
                            self.wants(took < 1, "%s: %.1f s" % (what, took))


if __name__ == "__main__":
    unittest.main()
