"""`argus explain` of mistakes made by hand: argus refuses each as said, and what explain says has
the words that were worked out by reading the mistake. Every kind of refusal is among them."""

import itertools
import os
import random
import re
import unittest
from typing import Dict, Iterable, List, Optional, Sequence, Set, Tuple

import explain_mistakes as mistakes
from explain_answers import KINDS
from explain_support import DOUBT, EXAMPLES, Room, asked, explained, text_in
from support import Case, program

RELEASED = "released: %d records, %d skipped, 0 passed over, 9 cells, 0 primary, 0 hidden\n"
KIND = re.compile(r"refused: (\w+)[^:]*: (\w+)")
# The refusal of a millionth record and one more, which takes too long to try.
TOO_LARGE = {("record", "TooMany")}
Place = Tuple[int, int]


class Mistakes(Case):
    """Mistakes by hand, and the kinds of refusals."""

    def test_mistakes(self) -> None:
        argus = program("argus")
        for it in mistakes.MISTAKES + mistakes.DOUBTS:
            with Room(files={**mistakes.BASE, **it.files}):
                if it.is_tried:
                    answer = asked(argus, it.asked.split())[1]
                    self.same(answer, it.answer + "\n", it.name + ": the answer")
                said = explained(it.asked.split(), it.answer + "\n")
            lacking = [word for word in it.words if word not in said.text]
            is_short = 1 <= len(said.lines) <= 6
            self.wants(is_short and not lacking, "%s: %s: %s" % (it.name, lacking, said.text))

    def test_kinds(self) -> None:
        """Each kind of refusal is a mistake here, or one of the examples."""
        answers = [it.answer for it in mistakes.MISTAKES]
        for example in ("mistakes", "more_mistakes"):
            answers += text_in(os.path.join(EXAMPLES, example, "said.txt")).split("\n")
        told = {found.groups() for found in map(KIND.match, answers) if found}
        wanted = {(file, kind) for file, kinds in KINDS.items() for kind in kinds}
        self.same(sorted(wanted - told), sorted(TOO_LARGE), "kinds without a mistake")


def doubts_of(lines: Iterable[str]) -> Dict[Tuple[str, ...], str]:
    """The doubts about overlapping variables, by the two names in order."""
    found = [(DOUBT.match(line), line) for line in lines]
    return {tuple(sorted(it.groups())): line for it, line in found if it}


def is_overlap(rows: Sequence[str], one: Place, other: Place) -> bool:
    """Whether two fields share bytes, or each code of one occurs with a single code of the other,
    which has two at least."""
    bytes_of = [set(range(first, first + width)) for first, width in (one, other)]
    both = {
        tuple(row[first - 1:first - 1 + width].strip() for first, width in (one, other))
        for row in rows
    }
    codes = [{it[k] for it in both} for k in (0, 1)]
    return bool(bytes_of[0] & bytes_of[1]) or any(
        len(both) == len(codes[k]) and len(codes[1 - k]) > 1 for k in (0, 1))


class Overlaps(Case):
    """Variables across which a reader can add up."""

    def test_by_hand(self) -> None:
        """All doubts that are wanted, and no others."""
        argus = program("argus")
        for it in mistakes.OVERLAPS:
            with Room(files=dict(mistakes.files_of(it))):
                answer = asked(argus, ["run", "it.job"])[1]
                lines = explained(["run", "it.job"], answer).lines
            self.wants(answer.startswith("released: "), "%s: %s" % (it.tables, answer))
            found = doubts_of(lines)
            wanted = {tuple(sorted(doubt[:2])): doubt[2:] for doubt in it.doubts}
            self.same((sorted(found), len(lines)), (sorted(wanted), len(found)), str(it.tables))
            for names, words in wanted.items():
                said = found.get(names, "")
                lacking = [word for word in [*words, "<DEPTH> ("] if word not in said]
                self.wants(not lacking, "%s: lacks %s: %s" % (it.tables, lacking, said))

    def test_made(self) -> None:
        """Made records, whose pairs are counted anew."""
        draw = random.Random(7)
        for _ in range(60):
            places = {it: (draw.randrange(1, 9), draw.choice((1, 1, 2))) for it in "ABCDE"}
            count = draw.choice((0, 2, 3, 5, 9, 30))
            rows = [
                "".join(draw.choice("xxy" if at % 3 else "xyz ") for at in range(9))
                for _ in range(count)
            ]
            skipped = ["".join(draw.choice("pqr") for _ in range(9)) for _ in range(3)]
            with Room(files=made_files(places, rows, skipped)):
                answer = RELEASED % (max(len(rows), 1), 3)
                found: Set[Tuple[str, ...]] = set(
                    doubts_of(explained(["run", "it.job"], answer).lines))
            wanted = {
                pair for pair in itertools.combinations("ABCDE", 2)
                if is_overlap(rows, *(places[it] for it in pair))
            }
            self.same(found, wanted, "made variables %s" % places)


def made_files(
    places: Dict[str, Place], rows: List[str], skipped: List[str]
) -> Dict[str, Optional[bytes]]:
    """The files of a job with a table for each variable."""
    metadata = "".join("%s %d %d\n" % (it, *place) for it, place in places.items())
    tables = "".join('<SPECIFYTABLE> "%s"|"V"\n' % it for it in places)
    records = "".join(it + " 7\n" for it in rows) + "".join(it + "  \n" for it in skipped)
    job = '<OPENMICRODATA> "m.asc"\n<OPENMETADATA> "m.rda"\n' + tables
    return {
        "m.rda": (metadata + "V 10 2\n<NUMERIC>\n").encode(), "m.asc": records.encode(),
        "it.job": job.encode(),
    }


if __name__ == "__main__":
    unittest.main()
