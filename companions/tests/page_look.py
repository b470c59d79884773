"""What a browser makes of a page: it is opened in headless Chromium, clicked through, made narrow,
and put on paper."""

import os
from typing import Callable

from page_browser import Browser

from argus_office.paging.release import Release
from argus_office.paging.texts import visible

# A landscape page of A4 without its margins, in pixels.
PAPER = 1040
# The list has so many lines when it is first looked at.
LINES = 200
COUNT = "document.querySelectorAll(%r).length"


class Look:
    """A page in the browser; wants(IS_SO, WHAT) takes what isn't as it should be."""

    def __init__(self, seen: Browser, wants: Callable[[bool, str], object]) -> None:
        self.seen, self.wants = seen, wants

    def whole(self, release: Release, file: str) -> None:
        """A page for the office: each of its hidden cells, its keys, its views, its paper."""
        seen, hidden = self.seen, release.hidden
        seen.size(1280, 900)
        seen.media()
        seen.open(file)
        self.clean("opened")
        first = seen.value("document.body.innerText.split('\\n')[0]")
        self.wants(first.startswith("Not for publication."), "its first line is " + first)
        shown = seen.value("new Set(Array.from(document.querySelectorAll('td.x')).map("
                           "function (td) { return td.dataset.c; })).size")
        self.wants(shown == len(hidden), "%d cells are x, not %d" % (shown, len(hidden)))
        if hidden:
            self.list(release)
            for cell in hidden[:LINES]:
                self.choose(release, cell)
        for button in range(seen.value(COUNT % "button[data-all=open]")):
            seen.value("document.querySelectorAll('button[data-all=open]')[%d].click()" % button)
        self.wants(seen.value(COUNT % ".folded") == 0, "something stays folded")
        self.keys()
        self.clean("used")
        self.views(release)
        self.fits()
        self.heads()
        self.paper(release, file)

    def public(self, file: str) -> None:
        """A public page."""
        self.seen.open(file)
        self.clean("public")
        text = self.seen.value("document.body.innerText")
        self.wants("Not for publication" not in text, "the public page isn't for publication")

    def plain(self, file: str) -> None:
        """A page where no script runs: its tables stand there, and nothing that needs a script."""
        seen = self.seen
        cells = seen.value(COUNT % "table.cells td")
        seen.call("Emulation.setScriptExecutionDisabled", value=True)
        seen.open(file)
        # (expressions are still worked out)
        self.clean("without scripts")
        self.wants(seen.value(COUNT % "table.cells td") == cells, "cells are missing")
        gone = seen.value("Array.from(document.querySelectorAll('.screen, .sortable')).filter("
                          "function (it) { return it.offsetParent !== null; }).length")
        self.wants(gone == 0, "%s things stand there that need a script" % gone)
        away = seen.value("Array.from(document.querySelectorAll('table.cells tr')).filter("
                          "function (it) { return it.offsetParent === null; }).length")
        self.wants(away == 0, "%s rows aren't shown" % away)
        seen.call("Emulation.setScriptExecutionDisabled", value=False)
        seen.open(file)

    def clean(self, when: str) -> None:
        """Nothing went wrong, and nothing but the page was loaded."""
        self.wants(not self.seen.faults, "%s: %s" % (when, "; ".join(self.seen.faults)))
        loads = self.seen.loads
        others = [it for it in loads if not it.startswith("file://") or not it.endswith(".html")]
        self.wants(not others and len(loads) == 1, "it loads " + ", ".join(loads))
        self.wants(self.seen.value("window.ran") is None, "a script of a name ran")

    def list(self, release: Release) -> None:
        """The list is drawn when it is looked at, and grows where it is scrolled down."""
        seen, count = self.seen, len(release.hidden)
        lines = COUNT % ".sortable tbody tr"
        seen.value("document.querySelector('.sortable').scrollIntoView()")
        seen.settle(lines + " > 0")
        self.wants(seen.value(lines) == min(count, LINES), "the list has other lines")
        if count > LINES:
            seen.value("document.querySelector('.tall').scrollTop = 1e9")
            seen.settle(lines + " > %d" % LINES)
            self.wants(seen.value(lines) > LINES, "the list doesn't grow")
        order = "Array.from(document.querySelectorAll('.sortable td:first-child')).map(" \
                "function (it) { return +it.textContent; })"
        seen.value("document.querySelector('.sortable th').click()")
        self.wants(seen.value(order) == release.hidden[:LINES], "it isn't put in order")
        seen.value("document.querySelector('.sortable th').click()")
        self.wants(seen.value(order)[0] == release.hidden[-1], "it isn't turned around")
        seen.value("document.querySelector('.sortable th').click()")

    def lead(self, cell: int) -> None:
        """Follows the list to a cell."""
        self.seen.value("document.querySelector('.sortable a[data-to=\"%d\"]').click()" % cell)

    def choose(self, release: Release, cell: int) -> None:
        """The list of hidden cells leads to the cell, wherever it is folded away; a click on it
        shows its facts."""
        seen = self.seen
        self.lead(cell)
        at = seen.value("document.activeElement.offsetParent === null ? '' : "
                        "document.activeElement.dataset.c")
        self.wants(at == str(cell), "the list leads to %s, not to cell %d" % (at, cell))
        seen.press("Escape")
        td = "td[data-c=\"%d\"]" % cell
        if seen.value("document.querySelector(%r).offsetParent !== null" % td):
            seen.click(td)
        else:
            self.lead(cell)
        said = seen.value("document.querySelector('.panel').innerText")
        name = visible(release.book.called(cell, True))
        self.wants(name in said, "cell %d doesn't show its name" % cell)
        self.wants("cell %d " % cell in said, "cell %d doesn't show its facts: %s" % (cell, said))
        if release.ranges:
            low = release.amounts.show(release.ranges[cell][0])
            self.wants("can tell: " + low in said, "cell %d doesn't show its interval" % cell)
        if release.came_by(cell) == "primary":
            count = seen.value(COUNT % ".panel .worlds li")
            self.wants(count == 2, "cell %d has %d complete tables" % (cell, count))
        else:
            self.wants("If it were shown" in said, "cell %d doesn't say why it stays" % cell)

    def keys(self) -> None:
        """The arrow keys step through a table, each cell on the way is chosen, and Escape puts the
        facts away."""
        seen = self.seen
        seen.value("document.querySelector('.sheet:not(.off) td').focus()")
        for key in ("ArrowDown", "ArrowUp", "ArrowDown"):
            seen.press(key)
        at = seen.value("document.activeElement.parentNode.sectionRowIndex")
        chosen = seen.value("document.activeElement.classList.contains('chosen')")
        self.wants(at == 1 and chosen, "the arrow keys lead to row %s" % at)
        seen.press("Escape")
        left = seen.value("document.querySelector('.panel .chosen').innerText")
        self.wants(left == "", "Escape leaves the facts")

    def views(self, release: Release) -> None:
        """True values, complete tables, and the way back."""
        seen = self.seen
        if release.hidden and release.facts:
            cell = release.hidden[0]
            text = "document.querySelector('td.x[data-c=\"%d\"] b').textContent" % cell
            truth = release.amounts.show(release.facts[cell].value)
            seen.click('input[value="v"]')
            self.wants(seen.value(text) == truth, "the true value isn't shown")
            seen.click('input[value="x"]')
            self.wants(seen.value(text) == "x", "the true value stays")
        worlds = release.certificate.worlds
        if worlds and release.facts:
            cell = worlds[0].subject
            self.find(cell)
            seen.click(".panel button[data-world]")
            td = "document.querySelector('td.x[data-c=\"%d\"]')" % cell
            moved = seen.value(td + ".classList.contains('moved')")
            self.wants(moved, "the complete table isn't shown")
            off = dict(worlds[0].moves)[cell] // worlds[0].den
            wanted = release.amounts.show(release.facts[cell].value + off)
            is_whole = dict(worlds[0].moves)[cell] % worlds[0].den == 0
            self.wants(not is_whole or seen.value(td + ".querySelector('b').textContent") == wanted,
                       "the complete table has another value")
            seen.click("#world button")
            self.wants(seen.value(COUNT % "td.moved") == 0, "the complete table stays")

    def find(self, cell: int) -> None:
        """Jumps to a cell: by the search where there is one, and else by the list."""
        if not self.seen.value("!!document.getElementById('find')"):
            self.lead(cell)
            return
        self.sought(str(cell))
        at = self.seen.value("document.activeElement.dataset.c")
        self.wants(at == str(cell), "the search leads to %s, not to %d" % (at, cell))

    def sought(self, words: str) -> None:
        """Looks for a cell, and goes to the first that is found."""
        self.seen.value(
            "(function () { var it = document.getElementById('find'); it.value = %r; it.focus();"
            " it.dispatchEvent(new Event('input')); })()" % words)
        self.seen.press("Enter")

    def search(self, release: Release) -> None:
        """Cells are found by their codes in any order, and by parts of them."""
        seen, book = self.seen, release.book
        for cell in (0, len(book.names) // 2, len(book.names) - 1):
            codes = [it for k, it in enumerate(book.names[cell])
                     if it != book.codes[book.variables[k]][0]]
            self.sought(" ".join(reversed(codes)) or "total")
            at = seen.value("document.activeElement.dataset.c")
            self.wants(at == str(cell), "%s leads to %s, not to %d" % (codes, at, cell))
        self.sought("nothing-like-it")
        said = seen.value("document.getElementById('found').innerText")
        self.wants(said == "no cell has these codes", "it finds " + said)

    def fits(self) -> None:
        """Wide and narrow: the page is no wider than the window, and each number stays in its
        tile."""
        for wide in (400, 1280):
            self.seen.size(wide, 900)
            found = self.seen.value("document.documentElement.scrollWidth")
            self.wants(found <= wide, "at %d pixels the page is %s wide" % (wide, found))
            out = self.seen.value(
                "Array.from(document.querySelectorAll('.tiles b')).filter(function (it) "
                "{ return it.scrollWidth > it.clientWidth; }).length")
            self.wants(out == 0, "at %d pixels %s numbers leave their tiles" % (wide, out))

    def heads(self) -> None:
        """Tables and lists scroll under their heads."""
        for name in (".sheet:not(.off)", ".scroll.tall"):
            off = self.seen.value(
                "(function () { var box = document.querySelector(%r); if (!box) return 0;"
                " box.scrollTop = 1000; box.scrollLeft = 1000;"
                " var head = box.querySelector('thead th').getBoundingClientRect(),"
                " at = box.getBoundingClientRect();"
                " return box.scrollTop > 60 && Math.abs(head.top - at.top) > 10 ?"
                " head.top - at.top : 0; })()" % name)
            self.wants(off == 0, "the heads of %s go %s pixels away" % (name, off))

    def paper(self, release: Release, file: str) -> None:
        """On paper each piece of a table is as wide as a page at most, all rows are there, and the
        list of hidden cells is there only where it is asked for."""
        seen = self.seen
        seen.size(PAPER, 900)
        seen.open(file)
        seen.media("print")
        seen.value("window.dispatchEvent(new Event('beforeprint'))")
        wide = seen.value(
            "Math.max.apply(null, Array.from(document.querySelectorAll('table.cells')).map("
            "function (it) { return it.getBoundingClientRect().width; }))")
        self.wants(wide <= PAPER, "a table is %s pixels wide on paper" % wide)
        away = seen.value(
            "Array.from(document.querySelectorAll('table.cells:not(.in-pieces) td')).filter("
            "function (it) { return it.offsetParent === null; }).length")
        self.wants(away == 0, "%s cells aren't on paper" % away)
        left = ("Array.from(document.querySelectorAll('.on-demand')).filter(function (it) "
                "{ return getComputedStyle(it).display !== 'none'; }).length")
        self.wants(seen.value(left) == 0, "the list is printed though nobody asked")
        seen.value("window.dispatchEvent(new Event('afterprint'))")
        if release.hidden:
            self.demanded(release, left)
        left_over = seen.value(COUNT % ".piece, .in-pieces, .facts-of-all article")
        self.wants(left_over == 0, "pieces stay behind")
        seen.media()

    def demanded(self, release: Release, left: str) -> None:
        """The list and the facts of every hidden cell go on paper where that is asked for."""
        seen, count = self.seen, len(release.hidden)
        seen.value("document.getElementById('demand').click()")
        seen.value("window.dispatchEvent(new Event('beforeprint'))")
        self.wants(seen.value(left) == 2, "the list isn't printed though it was asked for")
        self.wants(seen.value(COUNT % ".sortable tbody tr") == count, "lines are missing")
        self.wants(seen.value(COUNT % ".facts-of-all article") == count, "facts are missing")
        lost = seen.value(
            "Array.from(document.querySelectorAll('.facts-of-all a')).filter(function (it) "
            "{ return !document.getElementById(it.hash.slice(1)); }).length")
        self.wants(lost == 0, "%s links lead nowhere" % lost)
        seen.value("window.dispatchEvent(new Event('afterprint'))")


def pictures(seen: Browser, page: str, folder: str) -> None:
    """A page with a cell chosen: light, dark, narrow and on paper."""
    unfold = ("var all = document.querySelector('section.table button[data-all=\"open\"]');"
              " if (all) all.click()")
    for name, wide, kind, scheme in (
        ("light", 1280, "", "light"), ("dark", 1280, "", "dark"), ("narrow", 400, "", "light"),
        ("paper", PAPER, "print", "light"),
    ):
        seen.size(wide, 900)
        seen.media(kind, scheme)
        seen.open(page)
        if not kind:
            seen.value(unfold)
            seen.click("td.repair, td.step")
        seen.picture(os.path.join(folder, name + ".png"), bool(kind))
    seen.paper(os.path.join(folder, "paper.pdf"))
    seen.media()
