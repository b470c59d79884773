"""Damaged CSVs: start refuses each with its line, or what it takes has the same sums as an
independent reading; the CSV stays, and nothing is left behind.
"""

import csv
import os
import random
import re
from typing import Callable, List

from start_support import StartCase, flat, start
from support import content, put
from test_start_ways import by_group
from writers import WAYS, register

MARKS = ";,\t\"'.-xe0\n\r\0 \xe4\xff"
NUMBERS = ("-5", "1e9", "1e-12", "12x", "1 000", "1.2.3", "", "7,5", "9" * 17)
CODES = ("Total", " South", "So\tuth", "X" * 300, '"', "S\xffd")
ENDS = ("Total;;;;;;1\n", "\n\n\n", "\x1a", '"', "Sum,,,,,,\n")


def in_line(text: str, row: int, change: Callable[[str], List[str]]) -> str:
    """The text with something else in place of a line."""
    lines = text.split("\n")
    return "\n".join(lines[:row] + change(lines[row]) + lines[row + 1:])


def damaged(draw: random.Random, text: str) -> str:
    """The text with one damage; it is Latin-1, so that every byte is one letter."""
    at = draw.randrange(len(text))
    row = draw.randrange(text.count("\n") + 1)
    whole = draw.choice(["\n", ";", ",", '"', "turnover", "branch"])
    kinds: List[Callable[[], str]] = [
        lambda: text[:at] + text[at + 1:],
        lambda: text[:at] + draw.choice(MARKS) + text[at:],
        lambda: text[:at] + draw.choice(MARKS) + text[at + 1:],
        lambda: text[:at],
        lambda: in_line(text, row, lambda it: [it, it]),
        lambda: in_line(text, row, lambda it: []),
        lambda: in_line(text, row, lambda it: [it[::-1]]),
        lambda: in_line(text, row, lambda it: [re.sub(r"\d+", draw.choice(NUMBERS), it)]),
        lambda: in_line(text, row, lambda it: [it.replace("South", draw.choice(CODES))]),
        lambda: text.replace(whole, draw.choice(["", "\r", "|", "'", "region"])),
        lambda: text + draw.choice(ENDS),
    ]
    return draw.choice(kinds)()


class Damage(StartCase):
    """Two hundred damaged CSVs."""

    def one(self, seed: int) -> bool:
        """Checks one, and says whether it was taken."""
        draw = random.Random(seed)
        way = draw.choice([it for it in WAYS if it.name != "an old Macintosh"])
        records = [[it[0].replace("\n", " "), *it[1:]] for it in register(seed, 25)]
        text = way.write(records, way).encode(way.encoding).decode("latin-1")
        put("it.csv", damaged(draw, text))
        before = content("it.csv")
        table = ("region", "branch") if seed % 2 else ("region", "size")
        has_groups = seed % 4 == 1
        words = ["--by", table[0], "--by", table[1]]
        words += ["--parent", "branch=group"] if has_groups else []
        answer = start("it.csv", "--value", "turnover", *words, *way.words)
        name = "damage %d of %s" % (seed, way.name)
        self.same(content("it.csv"), before, name + ": the CSV")
        if answer.status == 0:
            try:
                self.agree(name, way, (table,), None, by_group(way) if has_groups else flat)
            except (csv.Error, ValueError, KeyError, AttributeError) as fault:
                self.wants(False, "%s: taken, and the other reading fails: %r" % (name, fault))
            return True
        line = re.match(r"start: it\.csv, line (\d+)(, column [^:]+)?: .+", answer.err)
        lines = before.count(b"\n") + before.count(b"\r") + 1
        is_line = line is not None and 1 <= int(line[1]) <= lines
        self.wants(answer.status == 2 and is_line, "%s: %d, %s" % (name, *answer[::2]))
        self.same(self.names(), ["it.csv"], name + ": what is left behind")
        return False

    def test_damage(self) -> None:
        """Some are taken, and more are refused."""
        taken = 0
        for seed in range(200):
            taken += self.one(seed)
            for name in self.names():
                os.remove(name)
        self.wants(20 <= taken <= 150, "%d of 200 are taken" % taken)
