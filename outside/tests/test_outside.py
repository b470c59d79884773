"""The checker beside argus: where argus says `accepted`, or what it finds at fault, the checker
must say the same, down to the table, line, cell, sum or place that is named.

OUTSIDE_MADE says how many made jobs are tried, 300 where it isn't set.
"""
import os
import tempfile
import unittest
from typing import Callable

import by_hand
import releases
from tries import Tries, unpacked

# The program that is asked beside the checker.
ARGUS = os.environ.get("ARGUS") or unpacked()


class Outside(unittest.TestCase):
    """Each kind of try in a folder of its own; what differs is printed, with both answers."""
    def none_differs(self, least: int, call: Callable[[Tries, str], None]) -> None:
        """Runs tries, at least so many, of which none may differ."""
        tries = Tries(ARGUS)
        with tempfile.TemporaryDirectory() as room:
            call(tries, room)
        self.assertEqual(tries.differ, 0)
        self.assertGreaterEqual(tries.tried, least)

    def test_conditions_by_hand(self) -> None:
        """Small jobs at the edge of a condition."""
        self.none_differs(8, by_hand.try_by_hand)

    def test_depths_by_hand(self) -> None:
        """Tables down to a level."""
        self.none_differs(23, by_hand.try_depths)

    def test_long_lines(self) -> None:
        """Lines of 60,000 bytes in each file, each answered within a second."""
        self.none_differs(1000, lambda tries, room: releases.try_long_lines(tries, room, 400))

    def test_seals(self) -> None:
        """A sealed release, and one with a file exchanged."""
        self.none_differs(18, releases.try_seals)

    def test_examples(self) -> None:
        """All jobs of the examples, as stored and as argus releases them."""
        self.none_differs(150, releases.try_examples)

    def test_each_byte(self) -> None:
        """A certificate cut at each byte, and it and its table with each byte raised."""
        self.none_differs(600, releases.try_altered)

    def test_damages(self) -> None:
        """Inputs and releases of six examples, damaged."""
        self.none_differs(1200, lambda tries, room: releases.try_damaged(tries, room, 1200))

    def test_made_jobs(self) -> None:
        """Made jobs of every kind, as released and once more with one number or byte changed."""
        count = int(os.environ.get("OUTSIDE_MADE", "300"))
        self.none_differs(count, lambda tries, room: releases.try_made(tries, room, 1, count))


if __name__ == "__main__":
    unittest.main()
