"""`argus page` on damaged and random files: a status and a line, never a traceback, and nothing
overwritten but its own page."""

import os
import random
import unittest

from page_support import page, release_of
from support import Case, content, program, put

JOB = "turnover.job"
NAMES = (JOB, "firms.rda", "turnover.csv", "turnover.cert")


class Damage(Case):
    """Files with bytes cut off, changed, doubled, or drawn."""

    def setUp(self) -> None:
        super().setUp()
        release_of("protected")
        self.argus = program("argus")
        self.before = {it: content(it) for it in os.listdir(".")}

    def look(self, what: str) -> None:
        """The pages of a damaged release, and what is there afterwards."""
        before = {it: content(it) for it in os.listdir(".") if not it.endswith(".html")}
        for words in (("out.html",), ("p.html", "--public"), ("u.html", "--public", "--unchecked")):
            try:
                said = page(JOB, *words, "--argus", self.argus)
            except BaseException as fault:  # pylint: disable=broad-except
                self.wants(False, "%s: %r" % (what, fault))
                continue
            self.wants(said.status in (0, 2, 3), "%s: %s" % (what, said))
            self.wants("Traceback" not in said.err and bool(said.out + said.err), what)
        after = {it: content(it) for it in os.listdir(".") if not it.endswith(".html")}
        self.same(after == before, True, what + ": a file was changed")

    def test_changed(self) -> None:
        draw = random.Random(5)
        for name in NAMES:
            whole = self.before[name]
            for k in range(9):
                at, byte = draw.randrange(len(whole)), bytes([draw.randrange(256)])
                changed = (whole[:at], whole[:at] + byte + whole[at + 1:],
                           whole[:at] + whole[at:at + 5] + whole[at:])[k % 3]
                put(name, changed)
                self.look("%s, way %d, byte %d" % (name, k % 3, at))
            put(name, whole)

    def test_random(self) -> None:
        draw = random.Random(6)
        for name in NAMES:
            for size in (0, 1, 40, 3000):
                put(name, bytes(draw.choices(range(256), k=size)))
                self.look("%s of %d random bytes" % (name, size))
            put(name, self.before[name])

    def test_long(self) -> None:
        """Lines on which a pattern that goes back and forth would take for ever."""
        for name, line in (
            (JOB, b"<" * 100000), (JOB, b"<DEPTH> (" + b" " * 100000), (JOB, b'<A>"' * 50000),
            ("firms.rda", b'"' * 100001), ("firms.rda", b"<" + b"a" * 100000),
            ("turnover.cert", b"\nstep " + b"1," * 50000), ("turnover.csv", b"1" * 100000),
        ):
            put(name, self.before[name] + line + b"\n")
            self.look(name + " with a long line")
            put(name, self.before[name])


if __name__ == "__main__":
    unittest.main()
