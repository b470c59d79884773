"""What `argus page` shows, against the certificate, the listings and what outside/ counts by
itself."""

import os
import re
import sys
import unittest
from fractions import Fraction
from typing import Any, List

from page_support import EXAMPLES, MADE, Kept, Marks, Seen, page, page_text, release_of, run
from support import TOP, Case

from argus_office.paging.release import Release
from argus_office.paging.texts import grouped, visible
from argus_office.paging.words import Words

sys.path.insert(0, os.path.join(TOP, "outside"))
from argus_outside.judgement import read_case  # noqa: E402

TITLE = "A <b>title</b> | thousand \u20ac | 2025 | 30 November 2026"
# What the page calls three tables, their cells, and for the rows of the first and the third the
# row that each is below.
DEEP = (("N by U (to level 2) and W", 39), ("N by U (to level 1) and R", 32),
        ("N by R (to level 1)", 3))
DEEP_PARENTS = {0: [None, 0, 1, 1, 1, 0, 5, 5, 5, 0, 9, 9, 9], 2: [None, 0, 0]}


class Releases(Case):
    """Every release: the examples, made ones, and a job of 4,135 cells."""

    def test_examples(self) -> None:
        for name in EXAMPLES:
            self.try_release(name)

    def test_made(self) -> None:
        for name in (*MADE, "large"):
            self.try_release(name)

    def try_release(self, name: str) -> None:
        """Makes a release in a folder of its own, and looks at its pages."""
        os.mkdir(name)
        os.chdir(name)
        for job in release_of(name, False):
            run(job)
            said = page(job, "it.html", "--title", TITLE)
            if self.wants(said == (0, "page: it.html\n", ""), "%s: %s" % (name, said)):
                release = Kept.release
                seen = Seen(page_text("it.html"))
                self.marks(name, seen, release)
                self.facts(name, seen, release)
                self.worlds(name, seen, release)
                self.needs(name, release)
                self.public(name, job, release)
                os.remove("it.html")
        os.chdir(self.folder)

    def marks(self, name: str, seen: Seen, release: Release) -> None:
        """The page as HTML, its tables and its names."""
        self.same(seen.faults, [], name)
        shown, ids = seen.marks.shown, seen.marks.ids
        self.wants(shown.strip().startswith("Not for publication."), "the page begins otherwise")
        self.same(len(ids), len(set(ids)), "an id stands twice")
        self.wants("A <b>title</b>" in shown, "the title isn't there")
        self.wants("Period: 2025 · Date: 30 November 2026" in shown, "the period isn't there")
        self.wants(("Find a cell" in shown) == (len(release.book.names) > 1000), "the search")
        self.same(seen.hidden(), release.hidden, "hidden cells")
        for cell, text in enumerate(release.book.text):
            self.same(seen.names[cell], visible(release.book.called(cell, True)), "a name")
            self.same([it[0] for it in seen.at[cell]], release.book.within[cell], "where it is")
            digits = re.sub("[.\u202f]", "", seen.at[cell][0][2])
            wanted = "x" + release.mark(cell) if text == "x" else text.replace(".", "")
            if release.job.base is None:
                self.same(digits, visible(wanted).replace(".", ""), "cell %d" % cell)

    def facts(self, name: str, seen: Seen, release: Release) -> None:
        """The columns of the data are what the listing of the cells says."""
        assert release.facts is not None
        given, hidden = seen.data["facts"], release.hidden
        for word in ("records", "largest", "second"):
            wanted = [getattr(it, word) for it in release.facts]
            self.same([int(it) for it in given[word].split()], wanted, name + word)
        for word in ("value", "up", "down"):
            cells = hidden if word != "value" or not release.job.base else range(len(release.facts))
            wanted = [getattr(release.facts[it], word) for it in cells]
            self.same([int(it) for it in given[word].split()], wanted, name + word)
        primary = [k for k, it in enumerate(release.facts) if it.status == "primary"]
        self.same(given["status"].get("primary", ""), " ".join(map(str, primary)), "sensitive")
        if not release.ranges:
            return
        lows, highs = (it.split() for it in seen.data["ranges"])
        for k, cell in enumerate(hidden):
            fact, (low, high) = release.facts[cell], release.ranges[cell]
            self.same((lows[k], highs[k]), (str(low), "*" if high is None else str(high)), "ends")
            if release.came_by(cell) == "primary":
                is_open = high is None or high >= fact.value + fact.up
                self.wants(is_open and low <= fact.value - fact.down, "narrower than its levels")

    def worlds(self, name: str, seen: Seen, release: Release) -> None:
        """Each complete table of the data keeps all sums that outside/ counts, and reaches its
        level."""
        own = read_case(os.fsencode(release.job.name)).book.relations
        relations = [(total, list(parts)) for total, _, parts in own]
        self.same(release.relations, relations, name + ": the relations")
        self.same(len(seen.data["worlds"]), len(release.certificate.worlds), "complete tables")
        of: List[int] = []
        for subject, side, den, said in seen.data["worlds"]:
            moves = dict(map(int, it.split(":")) for it in said.split())
            off = sum(
                1 for total, parts in relations
                if moves.get(total, 0) != sum(moves.get(it, 0) for it in parts))
            self.same(off, 0, "sums that a complete table breaks")
            assert release.facts is not None
            fact = release.facts[subject]
            level = fact.up if side > 0 else fact.down
            self.wants(side * moves.get(subject, 0) >= int(den) * level, "it falls short")
            of.append(subject)
        primary = [it for it in release.hidden if release.came_by(it) == "primary"]
        self.same(sorted(of), sorted(primary * 2), "two complete tables for each sensitive cell")

    def needs(self, name: str, release: Release) -> None:
        """The sum by which a need gives a cell away is true, and leaves less than the level."""
        words = Words(release)
        assert release.facts is not None
        for need in release.certificate.needs.values():
            terms, reach = words.terms(need)
            fact = release.facts[need.subject]
            level = fact.up if need.side == "above" else fact.down
            self.wants(reach is not None and 0 <= reach < level, name + ": it leaves the level")
            if terms is None:
                continue
            self.wants(need.cell in terms, "the sum doesn't have the cell")
            total = sum(value * release.facts[it].value for it, value in terms.items())
            self.same(total, fact.value, "the sum isn't true")
            self.equation(words, need, terms)

    def equation(self, words: Words, need: Any, terms: Any) -> None:
        """The sum as it stands on the page: three terms at most, and true where no hidden cell is
        among them."""
        said = words.equation(need.subject, terms, need.cell, need.side == "above")
        text = said.replace("\x7f(\x7f", "").partition(" = ")[2].partition("\x7f)\x7f")[0]
        self.wants(text.count("\x7f") // 2 + text.count("this cell") <= 3, "it names more: " + text)
        self.wants("this cell" in text, "it doesn't name the cell: " + text)
        if "\x7f)\x7f, and " in said:
            return
        total = Fraction(0)
        for term in re.split(r" (?=[+\u2212] )", re.sub("\x7f[0-9]+\x7f", "cell", text)):
            sign = -1 if term.startswith("\u2212") else 1
            number = re.search(r"\(([0-9.\u202f]+)\)|([0-9.\u202f]+) for ", term)
            times = re.search("([0-9/]+) ×", term)
            assert number, term
            value = Fraction((number[1] or number[2]).replace("\u202f", ""))
            total += sign * value * (Fraction(times[1]) if times else 1)
        truth = Fraction(words.fact(need.subject).value, 10**words.release.amounts.decimals)
        self.same(total, truth, "the sum as it stands: " + text)

    def public(self, name: str, job: str, release: Release) -> None:
        """The public page has the same tables, and nothing of the facts."""
        self.same(page(job, "p.html", "--public").status, 0, name + ", public")
        text = page_text("p.html")
        seen = Seen(text)
        self.same(seen.faults, [], name + ", public")
        self.same(list(seen.data), ["places"], "its data")
        self.same(sorted(seen.data["places"]), ["ambiguous", "tables", "variables"], "its places")
        self.same(seen.hidden(), release.hidden, "its hidden cells")
        kinds = {tuple(it[1]) for cell in release.hidden for it in seen.at[cell]}
        self.wants(kinds <= {("x",)}, "a hidden cell has a kind")
        texts = {it[2] for cell in release.hidden for it in seen.at[cell]}
        self.wants(texts <= {"x"}, "a hidden cell has a text")
        os.remove("p.html")


class ByHand(Case):
    """What was worked out by hand."""

    def test_protected(self) -> None:
        release_of("protected")
        self.same(page("turnover.job").status, 0, "the page")
        seen = Seen(page_text("turnover.html"))
        said = seen.marks.shown
        self.wants("hidden, 44.4% of the cells: 1 sensitive, 3 more" in said, "what is hidden")
        self.wants("13 records added up, 0 skipped" in said, "what was read")
        data = seen.data
        self.same(data["facts"]["value"], "20 50 30 40", "true values")
        self.same((data["facts"]["up"][:2], data["facts"]["down"][:2]), ("6 ", "6 "), "levels")
        self.same([it.split()[0] for it in data["ranges"]], ["0", "50"], "the interval")
        self.same(
            seen.sentence(data["why"][0]),
            "It is sensitive: it has 2 records, and FREQ(3,30) wants at least 3.", "why")
        self.same(
            seen.sentence(data["need"][1]),
            "If it were shown, anyone could work out that {Region North · Branch Food} is at most "
            "20, exactly its true value. Its protection asks that it may be as much as 26. For "
            "{Region North · Branch Food} = {Region North} (70) \u2212 this cell (50).", "why not")

    def test_levels(self) -> None:
        release_of("deep")
        page("deep.job")
        text = page_text("deep.html")
        found = re.findall(r'<section class="table.*?</section>', text, re.DOTALL)
        self.same(len(found), 3, "tables")
        for k, (said, (name, cells)) in enumerate(zip(found, DEEP)):
            self.wants(">%s</h2>" % name in said, "the name of table %d" % k)
            self.same(said.count("<td"), cells, "the cells of table %d" % k)
            head = r'<th scope="row" class="d[0-9]"(?: data-parent="([0-9]+)")?>'
            rows = re.findall(head, said)
            if k in DEEP_PARENTS:
                self.same([int(it) if it else None for it in rows], DEEP_PARENTS[k], "rows")
        title = "N by U (to level 2) and W; by U (to level 1) and R; by R (to level 1)"
        self.wants(title in text, "the title")

    def test_wide(self) -> None:
        release_of("wide")
        page("wide.job")
        text = page_text("wide.html")
        self.wants('<b class="long">%s</b>' % grouped(153631709760) in text, "the long number")
        self.wants(bool(re.search(r'data-pieces="0( [0-9]+)+"', text)), "it isn't cut for paper")

    def test_without_script(self) -> None:
        """The tables stand in the page as they are, and what isn't there is said."""
        release_of("protected")
        page("turnover.job")
        text = re.sub("<script.*?</script>", "", page_text("turnover.html"), flags=re.DOTALL)
        cells = re.findall(r"<td[^>]*>(.*?)</td>", text.partition('class="cells"')[2])
        plain = [re.sub("<[^>]*>", " ", it).split()[0] for it in cells[:9]]
        self.same(plain, ["140", "50", "90", "70", "x", "x", "70", "x", "x"], "the table")
        self.wants("which doesn\u2019t run here" in text, "what isn't there")

    def test_no_tags_in_data(self) -> None:
        release_of("odd")
        page("odd.job")
        marks = Marks(page_text("odd.html"))
        self.same([it for it in "<>&" if it in marks.scripts[0]], [], "marks in the data")


if __name__ == "__main__":
    unittest.main()
