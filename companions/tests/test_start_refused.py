"""Refusals of start, each with its line and its words, which were worked out by hand."""

import os

from start_refused import REFUSED
from start_support import StartCase, start
from support import content, put


class Refused(StartCase):
    """The table of refusals."""

    def test_refused(self) -> None:
        """Each is refused with status 2, says where and what, and changes no file."""
        self.assertGreaterEqual(len(REFUSED), 66)
        for name, files, words, said in REFUSED:
            for file, text in files.items():
                put(file, text, "utf-8")
            before = {it: content(it) for it in os.listdir(".")}
            self.refused(start(*words.split(" ")), name, said)
            after = {it: content(it) for it in os.listdir(".")}
            self.same(after, before, name + ": the files")
            for it in after:
                os.remove(it)
