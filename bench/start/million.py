#!/usr/bin/env python3
"""Times `argus start` with a register of a million lines; its sums are kept while it is made.

usage: million.py

The last line says the seconds by the clock and of one processor; the status is 1 where start refuses
the register, or where the listing of the cells doesn't add up to it.
"""

import os
import random
import sys
import tempfile
import time
from fractions import Fraction
from itertools import product
from typing import Dict, Tuple

TOP = os.path.dirname(os.path.dirname(os.path.dirname(os.path.abspath(__file__))))
sys.path[:0] = [os.path.join(TOP, "companions"), os.path.join(TOP, "companions", "tests")]
sys.dont_write_bytecode = True

from start_support import listed, start  # noqa: E402

WORDS = (
    "--value", "turnover", "--table", "region,branch", "--table", "region,size", "--weight",
    "weight", "--levels", "branch=1,1"
)


def register() -> Dict[Tuple[str, str, str], int]:
    """Writes it.csv, and gives the sums of its codes in thousandths."""
    draw = random.Random(1)
    kept: Dict[Tuple[str, str, str], int] = {}
    with open("it.csv", "w", encoding="ascii", newline="") as file:
        file.write("firm;region;branch;size;weight;turnover\r\n")
        for k in range(1000000):
            branch = "%s%d" % (draw.choice("ABCD"), draw.randrange(9))
            codes = ("R%02d" % draw.randrange(40), branch, "S%d" % draw.randrange(5))
            weight, cents = draw.randrange(10, 90), draw.randrange(1, 10**8)
            numbers = (weight // 10, weight % 10, cents // 100, cents % 100)
            file.write("Firm %d;%s;%s;%s;%d,%d;%d,%02d\r\n" % (k, *codes, *numbers))
            kept[codes] = kept.get(codes, 0) + weight * cents
    return kept


def main() -> int:
    with tempfile.TemporaryDirectory() as folder:
        os.chdir(folder)
        kept = register()
        clock, used = time.time(), time.process_time()
        status, _, err = start("it.csv", *WORDS)
        clock, used = time.time() - clock, time.process_time() - used
        want: Dict[Tuple[object, ...], Fraction] = {}
        for (region, branch, size), it in kept.items():
            first = product((region, None), (branch, branch[0], None), (None,))
            for key in [*first, *product((region, None), (None,), (size,))]:
                want[key] = want.get(key, Fraction(0)) + Fraction(it, 1000)
        is_so = status == 0 and listed("it", ("region", "branch", "size"))[0] == want
        os.chdir("/")
    print(err or ("a million lines: %.1f s by the clock, %.1f s of one processor" % (clock, used)))
    return 0 if is_so else 1


if __name__ == "__main__":
    sys.exit(main())
