"""`argus page` in a browser: each release's pages are opened in headless Chromium, where one is
installed.

As a program, `python3 test_page_browser.py --pictures FOLDER` takes pictures of a page instead.
"""

import os
import sys
import tempfile
import unittest

from support import Case
from page_support import EXAMPLES, MADE, Kept, page, release_of, run
from page_browser import Browser, found
from page_look import Look, pictures

NAMES = (*EXAMPLES, *MADE, "large")


@unittest.skipUnless(found(), "no Chromium is installed here")
class InBrowser(Case):
    """Each release's page and its public page."""

    def setUp(self) -> None:
        super().setUp()
        self.seen = Browser()
        self.addCleanup(self.seen.close)

    def test_examples(self) -> None:
        self.look(EXAMPLES)

    def test_made(self) -> None:
        self.look(tuple(MADE))

    def test_large(self) -> None:
        self.look(("large",))

    def look(self, names: "tuple[str, ...]") -> None:
        """Opens the pages of releases, and clicks through them."""
        for name in names:
            os.mkdir(name)
            os.chdir(name)
            for job in release_of(name, False):
                run(job)
                self.same(page(job, "it.html").status, 0, name)
                look = Look(self.seen, lambda is_so, what: self.wants(is_so, name + ": " + what))
                look.whole(Kept.release, "it.html")
                if name == "large":
                    look.search(Kept.release)
                look.plain("it.html")
                page(job, "p.html", "--public")
                look.public("p.html")
                look.plain("p.html")
            os.chdir(self.folder)


def take(folder: str) -> None:
    """Pictures of the page of the tables to several levels."""
    seen = Browser()
    with tempfile.TemporaryDirectory() as place:
        os.chdir(place)
        release_of("deep")
        page("deep.job", "it.html")
        pictures(seen, "it.html", folder)
        os.chdir(folder)
    seen.close()


if __name__ == "__main__":
    if sys.argv[1:2] == ["--pictures"] and len(sys.argv) == 3:
        take(os.path.abspath(sys.argv[2]))
    else:
        unittest.main()
