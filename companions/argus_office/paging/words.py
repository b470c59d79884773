"""The sentences of a page: why a cell is hidden, and why it must stay hidden.

They are plain text in which a cell stands by its number and a sum between two marks (texts.py);
the page's script makes links of the one and a field of the other.
"""

import re
from fractions import Fraction
from typing import Dict, Iterable, List, Optional, Sequence, Tuple

from argus_office.paging.amounts import Fact, Number
from argus_office.paging.release import Release
from argus_office.paging.texts import as_sum, linked, some, visible
from argus_office.reading.arguments import Rule
from argus_office.reading.certificate import Need, Step

# A sum names at most so many of its terms, the largest; what the others come to is said in one.
LARGEST = 3
# The factor of each cell in a sum.
Terms = Dict[int, Number]


class Words:
    """The sentences of a page."""

    def __init__(self, release: Release) -> None:
        self.release, self.book, self.show = release, release.book, release.amounts.show

    def fact(self, cell: int) -> Fact:
        """The facts of a cell, where the listing is there."""
        assert self.release.facts is not None
        return self.release.facts[cell]

    def rule(self, name: str, cell: int) -> str:
        """Why a rule names a cell, from the cell's listing."""
        fact = self.fact(cell)
        given = self.release.job.stated(name)
        count = "%d record%s" % (fact.records, "" if fact.records == 1 else "s")
        if name == "FREQ" and given:
            text, rule = given[0]
            return "it has %s, and %s wants at least %d" % (count, text, rule.numbers[0])
        if name == "ZERO":
            return "it has %s, and each of them is known to be 0" % count
        if name == "u":
            return "an a priori file declares it unsafe"
        if name in ("P", "PQ") and given:
            return self.rule_p(name, fact, given)
        if name == "NK" and given:
            return self.rule_nk(fact, [text for text, _ in given])
        return "the rule %s names it" % name

    def rule_p(self, name: str, fact: Fact, given: List[Tuple[str, Rule]]) -> str:
        """Why P or PQ names a cell: what is left without its two largest contributions."""
        show, rest = self.show, fact.value - fact.largest - fact.second
        texts = some(text for text, _ in given)
        left = "without its two largest contributions, %s and %s, %s is left, " % (
            show(fact.largest), show(fact.second), show(rest))
        if name == "PQ":
            return left + "too little beside the largest by " + texts
        most = max(rule.numbers[0] for _, rule in given)
        return left + "which is less than %d%% of the largest (%s)" % (most, texts)

    def rule_nk(self, fact: Fact, given: List[str]) -> str:
        """Why NK names a cell: how much of it its largest contributions make up."""
        show, share = self.show, 100 * fact.largest / fact.value if fact.value else 0
        return (
            "its largest contributions make up too much of it: the first %s, the second %s of %s "
            "(%.1f%% the first alone; %s)"
            % (show(fact.largest), show(fact.second), show(fact.value), share, some(given))
        )

    def sensitive(self, cell: int) -> str:
        """Why a sensitive cell is hidden."""
        if not self.release.facts:
            return (
                "It is sensitive: the certificate has complete tables for it. By which rule, the "
                "listing of the cells would say."
            )
        said = [visible(self.rule(it, cell)) for it in self.fact(cell).rules]
        return "It is sensitive: " + "; ".join(said) + "." if said else "It is sensitive."

    def how(self, cell: int) -> str:
        """How a further cell came to be hidden."""
        by, _, number = self.release.came_by(cell).partition(" ")
        certificate = self.release.certificate
        if by == "step":
            return self.step(cell, number, certificate.steps[int(number) - 1])
        if by == "repair":
            repair = certificate.repairs[int(number) - 1]
            return (
                "Repair %s hid it: after the plan %s wasn't open far enough %s, and of the cells "
                "in the way this was the cheapest."
                % (number, linked(repair.subject), upwards(repair.side))
            )
        return "It was hidden against a contributor who knows a figure of their own."

    def step(self, cell: int, number: str, step: Step) -> str:
        """How a step of the plan came to hide a cell."""
        others = [linked(it) for it in step.corners if it not in (cell, step.subject)]
        where = self.subtable(step.table, [step.subject, *step.corners])
        beside = ", beside %s" % some(others) if others else ""
        return "Step %s of the plan hid it%s, as the cheapest way to open %s in table %d%s." % (
            number, beside, linked(step.subject), step.table, where)

    def subtable(self, table: int, cells: Sequence[int]) -> str:
        """The codes below which a step's cells lie in a table. (Its certificate has their numbers,
        which count codes that no table may show.)"""
        is_there = 0 < table <= len(self.book.tables)
        if not is_there or any(it >= len(self.book.names) for it in cells):
            return ""
        variables = self.book.tables[table - 1].variables
        codes = [self.book.parent_of(it, cells) for it in variables]
        if None in codes:
            return ""
        said = ["%s %s" % it for it in zip(variables, codes)]
        return ", below " + visible(" · ".join(said))

    def need(self, cell: int) -> str:
        """Why a further cell must stay hidden, from the certificate's multipliers."""
        need = self.release.certificate.needs.get(cell)
        if need is None and self.release.came_by(cell) == "extra":
            return "The file of contributors says why it must stay hidden."
        if need is None:
            return "The certificate doesn't say why it must stay hidden."
        closely = "If it were shown, %s could be worked out too closely from %s" % (
            linked(need.subject), need.side)
        if self.release.relations is None:
            return closely + "."
        terms, reach = self.terms(need)
        equation = "its bounds leave it no room"
        if terms:
            equation = self.equation(need.subject, terms, cell, need.side == "above")
        if reach is None:
            return "%s. For %s." % (closely, equation)
        return "%s For %s." % (self.end(need, reach), equation)

    def end(self, need: Need, reach: Fraction) -> str:
        """How closely a cell could be worked out, and how far its protection wants it open."""
        is_up, fact = need.side == "above", self.fact(need.subject)
        truth, level = fact.value, fact.up if need.side == "above" else -fact.down
        off = "within %s of its true value %s" % (self.show(reach), self.show(truth))
        if reach == 0:
            off = "exactly its true value"
        return (
            "If it were shown, anyone could work out that %s is at %s %s, %s. Its protection asks "
            "that it may be as %s as %s."
            % (linked(need.subject), "most" if is_up else "least",
               self.show(truth + reach if is_up else truth - reach), off,
               "much" if is_up else "little", self.show(truth + level))
        )

    def terms(self, need: Need) -> Tuple[Optional[Terms], Optional[Fraction]]:
        """The sum that gives the subject away where a cell is shown, as a factor for each cell in
        it, and how far the subject could then still lie off its true value to that side, in units.
        The sum is None where the subject isn't in it."""
        relations = self.release.relations or []
        one = need.q if need.side == "above" else -need.q
        sums = {need.subject: one}
        for number, times in need.multipliers:
            if number >= len(relations):
                return None, None
            total, parts = relations[number]
            sums[total] = sums.get(total, 0) + times
            for part in parts:
                sums[part] = sums.get(part, 0) - times
        # All relations are 0, so that the subject, q times and with its sign, is what all of them
        # add up to with it.
        own, reach = one - sums[need.subject], self.reach(sums, need.cell, need.q)
        if own == 0:
            return None, reach
        named = {it: by for it, by in sums.items() if by and it != need.subject}
        return {it: over(by, own) for it, by in named.items()}, reach

    def reach(self, sums: Dict[int, int], shown: int, q: int) -> Optional[Fraction]:
        """The bound sum of the multipliers, divided by q: how far the subject can move at most with
        the cell shown."""
        facts, left = self.release.facts, 0
        if not facts:
            return None
        for cell, value in sums.items():
            if value == 0 or not self.is_unknown(cell, shown):
                continue
            end = facts[cell].high if value > 0 else facts[cell].low
            if end is None:
                return None
            left += value * (end - facts[cell].value)
        return Fraction(left, q)

    def equation(self, subject: int, terms: Terms, shown: int, is_up: bool) -> str:
        """The sum that gives a cell away: its three largest terms, with the one that would be
        shown, and what the others come to."""
        order = sorted(terms, key=lambda it: (it != shown, -self.size(it, terms[it]), it))
        named, rest = order[:LARGEST], order[LARGEST:]
        hidden = [it for it in order if self.is_unknown(it, shown)]
        named.sort(key=lambda it: (self.is_unknown(it, shown), -terms[it], it))
        said = [self.term(terms[it], it, it == shown) for it in named]
        said += self.others(terms, [it for it in rest if it not in hidden])
        more = sum(1 for it in rest if it in hidden)
        tail = " and %d more hidden cell%s" % (more, "s" * (more > 1)) if more else ""
        first = re.sub(r"^\+ ", "", " ".join(said)) or "0"
        bounds = [self.bound(it, terms[it] > 0 if is_up else terms[it] < 0) for it in hidden]
        off = ", and " + some(bounds, LARGEST) if hidden else ""
        return as_sum("%s = %s%s" % (linked(subject), first, tail)) + off

    def is_unknown(self, cell: int, shown: int) -> bool:
        """Whether a reader wouldn't know a cell of a sum: it is hidden, and isn't the one that
        would be shown."""
        return self.book.text[cell] == "x" and cell != shown

    def size(self, cell: int, value: Number) -> Number:
        """How much a term of a sum makes up, in units; where its cell isn't known, its factor
        alone."""
        truth = self.release.truth(cell)
        size: Number = value if truth is None else value * truth
        return -size if size < 0 else size

    def others(self, terms: Terms, cells: Iterable[int]) -> List[str]:
        """The shown cells of a sum that aren't named, as one term, so that the sum stays true."""
        values: List[Number] = [terms[it] * (self.release.truth(it) or 0) for it in cells]
        if not values:
            return []
        together: Number = sum(values)
        sign = "\u2212" if together < 0 else "+"
        more = "%d more shown cell%s" % (len(values), "s" * (len(values) > 1))
        amount = self.show(-together if together < 0 else together)
        return ["%s %s for %s" % (sign, amount, more)]

    def bound(self, cell: int, is_high: bool) -> str:
        """What is known of a hidden cell without the tables: the bound that counts in a sum."""
        if not self.release.facts:
            return "%s lies within its bounds" % linked(cell)
        fact = self.fact(cell)
        end = fact.high if is_high else fact.low
        side = "most" if is_high else "least"
        return "%s is at %s %s" % (
            linked(cell), side, "any value" if end is None else self.show(end))

    def term(self, value: Number, cell: int, is_shown: bool) -> str:
        """A term of a sum: its sign, its factor, its cell and, where it is known, its amount."""
        sign = "\u2212" if value < 0 else "+"
        times = "" if abs(value) == 1 else "%s × " % abs(value)
        truth = self.release.truth(cell)
        is_known = truth is not None and (self.book.text[cell] != "x" or is_shown)
        amount = " (%s)" % self.show(truth or 0) if is_known else ""
        name = "this cell" if is_shown else linked(cell)
        return "%s %s%s%s" % (sign, times, name, amount)


def over(number: int, q: int) -> Number:
    """A number divided by another: whole where it is."""
    return number // q if number % q == 0 else Fraction(number, q)


def upwards(side: str) -> str:
    """The way that leads to a side of a value."""
    return "upwards" if side == "above" else "downwards"
