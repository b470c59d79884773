"""Tables down to a level, names with colons, and fields so long that a pattern could take its time.
"""

import csv
import io
import os
import time
from fractions import Fraction
from itertools import product
from typing import Dict, List, Optional, Set, Tuple

from start_support import Key, StartCase, listed, start, told
from support import put

INDUSTRIES = ("111", "112", "121", "211", "3", "")
LEVELS = "industry;place;size;v\n" + "".join(
    "%s;%s;%s;%d\n" % (*it, k + 1)
    for k, it in enumerate(product(INDUSTRIES, ("N1", "N2", "S1"), ("small", "large")))
)
PLACES = "N\n@N1\n@N2\nS\n@S1\n"
# Each table: its columns, and the last level of each that it shows.
SPANS: Tuple[Tuple[Tuple[str, Optional[int]], ...], ...] = (
    (("industry", None), ("size", None)),
    (("industry", 2), ("place", 1)),
    (("place", None), ("industry", 1)),
    (("size", 1),),
)
COLUMNS = ("industry", "place", "size")
ABOVE = {"N1": ["N"], "N2": ["N"], "S1": ["S"]}


def uppers(column: str, code: str) -> List[Optional[str]]:
    """A code with those above it, from below; the total is None."""
    above: List[str] = []
    if column == "place":
        above = ABOVE.get(code, [])
    elif column == "industry":
        above = [code[:it] for it in (2, 1) if it < len(code)]
    return [code, *above, None]


def shown_codes(column: str, code: str, level: Optional[int]) -> List[Optional[str]]:
    """Those of them that a table down to a level shows."""
    chain = uppers(column, code)
    return chain[max(0, len(chain) - 1 - (level or 9)):]


def expected() -> Dict[Key, Fraction]:
    """The cells that have records, with their sums, added up record by record."""
    cells: Dict[Key, Set[int]] = {}
    for row in csv.DictReader(io.StringIO(LEVELS), delimiter=";"):
        for table in SPANS:
            chains = [shown_codes(name, row[name], level) for name, level in table]
            for key in product(*chains):
                by = dict(zip((name for name, _ in table), key))
                cells.setdefault(tuple(by.get(it) for it in COLUMNS), set()).add(int(row["v"]))
    return {key: Fraction(sum(it)) for key, it in cells.items()}


def grid() -> int:
    """How many cells the tables have: each choice of codes of each table, once."""
    codes: Dict[str, Set[Optional[str]]] = {
        "industry": {it for code in INDUSTRIES for it in uppers("industry", code)},
        "place": {None, "N", "S", "N1", "N2", "S1"},
        "size": {None, "small", "large"},
    }
    found = set()
    for table in SPANS:
        sides = [
            [it for it in codes[name] if it is None or len(uppers(name, it)) - 1 <= (level or 9)]
            for name, level in table
        ]
        for key in product(*sides):
            named = zip((name for name, _ in table), key)
            found.add(frozenset((name, it) for name, it in named if it is not None))
    return len(found)


class Depths(StartCase):
    """Words such as `industry:2`."""

    def test_levels(self) -> None:
        """Tables to several levels: the lines of the job, and the cells of its listing."""
        put("it.csv", LEVELS)
        put("p.hrc", PLACES)
        words = ["it.csv", "--value", "v", "--levels", "industry=1,1,1", "--tree", "place=p.hrc"]
        for table in SPANS:
            spelled = (name + (":%d" % level if level else "") for name, level in table)
            words += ["--table", ",".join(spelled)]
        status, out, err = start(*words)
        self.same((status, err), (0, ""), "the call")
        lines = [it for it in told("it.job").split("\n") if it and not it.startswith("//")]
        want = [
            '<DEPTH> (2,"industry",2)', '<DEPTH> (2,"place",1)', '<DEPTH> (3,"industry",1)',
            '<DEPTH> (4,"size",1)',
        ]
        self.same(lines[-4:], want, "the last lines of the job")
        self.wants(lines[-5].startswith("<CERTIFICATE>"), "the line before: " + lines[-5])
        for line in ("table 2: industry down to level 2, 7 of its 11 codes",
                     "table 4: size down to level 1, all of its 2 codes", " %d cells." % grid()):
            self.wants(line in out, "start says %r: %s" % (line, out))
        have, said = listed("it", COLUMNS)
        filled = {key: it for key, it in have.items() if it}
        self.same(filled, expected(), "the listing adds up; " + said)
        self.same(len(have), grid(), "how many cells are listed")

    def test_colons(self) -> None:
        """A column whose own name ends with a colon and a number keeps it; and the separator is
        told from names with levels.
        """
        put("it.csv", "a:2;b,c;v\n11;x;1\n12;y;2\n")
        answer = start("it.csv", "--value", "v", "--by", "a:2", "--by", "b,c:1")
        self.same(answer[::2], (0, ""), "a:2 and b,c:1")
        job = told("it.job")
        self.wants('<SPECIFYTABLE> "a_2""b_c"|"v"' in job, job)
        self.same(job.count("<DEPTH>"), 1, "lines <DEPTH>")
        self.wants('<DEPTH> (1,"b_c",1)' in job, job)
        put("two.csv", "a,b;c,d;v\n11;x;1\n")
        answer = start("two.csv", "--value", "v", "--by", "a,b:03", "--by", "c,d")
        self.same(answer[::2], (0, ""), "a,b:03 and c,d")
        self.wants('<DEPTH> (1,"a_b",3)' in told("two.job"), told("two.job"))


# Fields of 60,000 bytes at which a pattern could take its time.
LONG = (
    "1" * 60000, "1," * 30000, "1." * 30000, "1,234" * 12000, "e" * 60000, "1e" + "9" * 60000,
    " " * 60000 + "1", "1" + " " * 60000 + "1", '"' * 60000, "-" * 60000, "x:" * 30000,
    "@" * 60000, "0" * 60000 + ".5",
)


class Long(StartCase):
    """A line of 60,000 bytes in the CSV, in a hierarchy file or among the words."""

    def test_long_lines(self) -> None:
        """It is taken or refused within a second."""
        for text in LONG:
            field = '"%s"' % text.replace('"', '""')
            plain, tree = "a,v\nx,1\n", "x\n"
            self.at_once(text, "a,v\nx,%s\n" % field, tree)
            self.at_once(text, "a,v\n%s,1\n" % field, tree)
            self.at_once(text, "a,%s,v\nx,1,1\n" % field, tree)
            self.at_once(text, plain, text + "\nx\n", "--tree", "a=it.hrc")
            self.at_once(text, plain, tree, "--by", "b:" + text)
            self.at_once(text, plain, tree, "--levels", "a=" + text)
            self.at_once(text, plain, tree, "--rule", text)

    def at_once(self, text: str, csv_text: str, tree: str, *words: str) -> None:
        """One call."""
        put("it.csv", csv_text)
        put("it.hrc", tree)
        begun = time.process_time()
        status, _, err = start("it.csv", "--value", "v", "--by", "a", *words)
        seconds = time.process_time() - begun
        name = "%.1f s, status %d for %s.. %s" % (seconds, status, text[:10], words[:1])
        is_told = status in (0, 1, 2) and "Traceback" not in err
        self.wants(is_told and seconds < 1, "%s: %s" % (name, err[:200]))
        for it in self.names():
            os.remove(it)
