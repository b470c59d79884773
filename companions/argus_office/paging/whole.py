"""A page as a whole."""

import os
from typing import List

from argus_office.paging.data import Data
from argus_office.paging.facts import Facts
from argus_office.paging.summary import Summary
from argus_office.paging.texts import checksum, safe, some

# How a page begins. Neither kind is ever written over the other.
MARK = "<!doctype html><!-- a page made from a release of argus -->"
MARK_OF_PUBLIC = "<!doctype html><!-- a public page made from a release of argus -->"
HERE = os.path.dirname(os.path.realpath(__file__))


def beside(name: str) -> str:
    """A file of this folder: the style and the script of the page."""
    with open(os.path.join(HERE, name), encoding="utf-8") as file:
        return "\n" + file.read()


STYLE, SCRIPT = beside("style.css"), beside("script.js")
PANEL = """<aside class="panel screen" aria-live="polite" aria-label="The cell that was chosen">
<p class="hint"><b>Choose a cell</b> by a click, or step through a table with the arrow keys.</p>\
<div class="chosen"></div></aside>"""


class Page(Summary, Data, Facts):
    """The page of a release, as HTML."""

    def html(self) -> str:
        """The page as a whole."""
        title, robots = safe(self.given.text or self.title()), ""
        if not self.release.is_public:
            title = safe(self.release.job.name) + ": " + title
            robots = '<meta name="robots" content="noindex">'
        policy = (
            "default-src 'none'; style-src 'sha256-%s'; script-src 'sha256-%s'; base-uri 'none'; "
            "form-action 'none'" % (checksum(STYLE), checksum(SCRIPT)))
        return "\n".join([
            MARK_OF_PUBLIC if self.release.is_public else MARK,
            '<html lang="en"><head><meta charset="utf-8">',
            '<meta http-equiv="Content-Security-Policy" content="%s">' % policy,
            '<meta name="viewport" content="width=device-width, initial-scale=1">'
            '<meta name="color-scheme" content="light dark">',
            robots + "<title>%s</title>" % title,
            "<style>%s</style></head><body>" % STYLE,
            *self.body(),
            "<script>%s</script></body></html>" % SCRIPT, ""])

    def body(self) -> List[str]:
        """The parts of the page, in order."""
        is_public = self.release.is_public
        tables = [self.table(it) for it in self.book.tables]
        if is_public:
            return [self.banner(), "<main>", self.head(), self.controls(), *tables, self.foot(),
                    "</main>", self.data()]
        return [
            self.banner(), "<main>", self.head(), self.summary(), self.read(), self.controls(),
            *tables, self.listed(), self.foot(), "</main>", PANEL, self.all_facts(), self.data()]

    def title(self) -> str:
        """What the tables show, where the office gave no title."""
        tables = self.book.tables
        spans = [some(it.spans()) for it in tables]
        more = "; and %d more tables" % (len(spans) - 3) if len(spans) > 3 else ""
        return "%s by %s%s" % (tables[0].response, "; by ".join(spans[:3]), more)

    def banner(self) -> str:
        """The warning that the page isn't for publication."""
        if self.release.is_public:
            return ""
        what = "true values of hidden cells and " if self.release.facts else ""
        return (
            '<p class="banner" role="note"><b>Not for publication.</b> This page has %sthe '
            "certificate in it. It is for the office and its auditor.</p>" % what)

    def head(self) -> str:
        """The title, what the figures are, and what argus says of them."""
        lines = ["<header><h1>%s</h1>" % safe(self.given.text or self.title())]
        if self.given.text:
            lines.append('<p class="sub">%s</p>' % safe(self.title()))
        if self.given.facts():
            said = " · ".join("%s: %s" % (it, safe(said)) for it, said in self.given.facts())
            lines.append('<p class="sub">%s</p>' % said)
        lines += self.for_all() if self.release.is_public else self.verdict()
        return "\n".join([*lines, "</header>"])

    def for_all(self) -> List[str]:
        """What a public page says of how its figures were protected."""
        lines = []
        if self.release.job.base:
            lines.append('<p class="sub">Figures are rounded, and all sums hold.</p>')
        if self.release.hidden:
            lines.append(
                '<p class="sub">A figure that could disclose a respondent isn\u2019t shown: '
                "<b>x</b> stands in its place.</p>")
        return lines

    def verdict(self) -> List[str]:
        """The job, its rules, what argus check says, and what the page leaves out."""
        release, job = self.release, self.release.job
        named = (safe(job.name), safe(job.method), safe(" | ".join(job.rules)))
        said, kind, sign = release.accepted, "bad", "\u2717"
        if release.is_accepted:
            said, kind, sign = "accepted", "good", "\u2713"
        return [
            '<p class="sub">Job <code>%s</code> · method <code>%s</code> · rules <code>%s</code>'
            "</p>" % named,
            '<p class="verdict %s"><span class="sign" aria-hidden="true">%s</span> <code>argus '
            "check</code> says: <b>%s</b></p>" % (kind, sign, safe(said)),
            *['<p class="note">%s</p>' % safe(it) for it in release.notes]]

    def foot(self) -> str:
        """What the page is made of, and what its word is worth."""
        if self.release.is_public:
            return ""
        return (
            '<footer><p class="small">Made by the script <code>page</code> from what argus wrote: '
            "the tables, the certificate, the listing of the cells and the intervals. "
            "argus\u2019s promises are proved; this page is outside the proofs. Where it matters, "
            "read the certificate, and let <code>argus check</code> judge it.</p></footer>")
