"""The head of a page: what is hidden and by what, and what was read."""

from typing import List, NamedTuple, Tuple

from argus_office.paging.amounts import Fact
from argus_office.paging.part import Part
from argus_office.paging.release import RULES, WAYS, Release
from argus_office.paging.tables import Table
from argus_office.paging.texts import grouped, percent, safe, some

# A number of more characters is set smaller in its tile.
LONG = 12


def hidden_part(release: Release, cells: List[int], table: Table) -> Tuple[int, int]:
    """How many records those of these cells have that are of a table's lowest codes, and their
    value in units."""
    facts, book = release.facts or [], release.book
    there = [
        facts[it] for it in cells if table.number in book.within[it] and book.is_lowest(it, table)]
    return sum(it.records for it in there), sum(it.value for it in there)


class Group(NamedTuple):
    """Cells that are hidden for one reason: its name, its colour, and the cells."""

    name: str
    colour: str
    cells: List[int]


class Summary(Part):
    """What is hidden, by rule and by way, and what was read."""

    def groups(self) -> List[Group]:
        """How cells are hidden, in the order of the legend."""
        release = self.release
        by = {cell: release.came_by(cell).partition(" ")[0] for cell in release.hidden}
        primary = [it for it in release.hidden if by[it] == "primary"]
        found = self.by_rules(primary, release.facts) if release.facts else [
            Group("sensitive", "s", primary)]
        for word, name in WAYS.items():
            found.append(Group(name, word, [it for it in release.hidden if by[it] == word]))
        return [it for it in found if it.cells]

    def by_rules(self, primary: List[int], facts: List[Fact]) -> List[Group]:
        """The sensitive cells by the rules that name them, and those that several name."""
        found = []
        for rule, colour in RULES.items():
            cells = [it for it in primary if rule in facts[it].rules]
            found.append(Group("sensitive by " + self.rule_name(rule), colour, cells))
        several = [it for it in primary if len(facts[it].rules) > 1]
        return [*found, Group("sensitive by more than one of these", "", several)]

    def rule_name(self, rule: str) -> str:
        """A rule as the job has it."""
        given = [text for text, _ in self.release.job.stated(rule)]
        if rule == "u":
            return "an a priori file (u)"
        return " or ".join(given) if given else rule

    def summary(self) -> str:
        """The tiles, and the hidden cells by how they came to be hidden."""
        lines = [
            '<section class="summary" aria-labelledby="summary"><h2 id="summary">At a glance</h2>'
            '<ul class="tiles">']
        lines += [
            "<li><b%s>%s</b> <span>%s</span></li>" % (
                ' class="long"' * (len(it) > LONG), it, said)
            for it, said in self.tiles()]
        lines.append("</ul>")
        if self.release.hidden:
            lines.append(self.by_rule())
        return "\n".join([*lines, "</section>"])

    def tiles(self) -> List[Tuple[str, str]]:
        """Numbers, and what each of them counts."""
        release, many = self.release, len(self.book.tables)
        found = [(grouped(len(self.book.names)), "cells in %d table%s" % (many, "s" * (many > 1)))]
        found += self.protected()
        if release.facts:
            skipped = release.skipped()
            tail = ", %s skipped" % grouped(skipped) if skipped is not None else ""
            found.append((grouped(release.facts[0].records), "records added up" + tail))
        total = release.truth(0)
        if total is not None:
            unit = ", %s" % safe(self.given.unit) if self.given.unit else ""
            name = safe(self.book.tables[0].response)
            found.append((self.show(total), "%s in all%s" % (name, unit)))
        return found

    def protected(self) -> List[Tuple[str, str]]:
        """How many cells are hidden, or rounded."""
        release = self.release
        if release.job.base is None:
            hidden = len(release.hidden)
            sensitive = sum(1 for it in release.hidden if release.came_by(it) == "primary")
            said = "hidden, %s of the cells: %d sensitive, %d more" % (
                percent(hidden, len(self.book.names)), sensitive, hidden - sensitive)
            return [(grouped(hidden), said if hidden else "hidden, since no cell is sensitive")]
        if not release.facts:
            return []
        base = self.show(release.job.base * 10**release.amounts.decimals)
        count = sum(1 for it in release.facts if it.status == "primary")
        said = "sensitive; all cells are rounded to multiples of %s and none is hidden" % base
        return [(grouped(count), said)]

    def by_rule(self) -> str:
        """The hidden cells by how they came to be hidden, with their records and their share."""
        tables = self.book.tables if self.release.facts else []
        head = "".join(self.head_of_share(it, len(tables) > 1) for it in tables)
        lines = [
            '<div class="scroll"><table class="plain legend"><caption>Hidden cells, by how they '
            "came to be hidden</caption>",
            '<thead><tr><th scope="col">how</th><th scope="col">cells</th>%s</tr></thead><tbody>'
            % head]
        whole = Group("all hidden cells", "all", self.release.hidden)
        lines += [self.group(it, tables) for it in [*self.groups(), whole]]
        lines.append("</tbody></table></div>")
        if tables:
            lines.append(
                '<p class="small">Records and shares are those of the hidden cells of the lowest '
                "codes, so that nothing counts twice. A cell that several rules name counts for "
                "each of them.</p>")
        return "\n".join(lines)

    def head_of_share(self, table: Table, is_named: bool) -> str:
        """The heads of a table's two columns."""
        where = " in table %d" % table.number if is_named else ""
        return '<th scope="col">records%s</th><th scope="col">share of %s%s</th>' % (
            where, safe(table.response), where)

    def group(self, group: Group, tables: List[Table]) -> str:
        """A line of the legend."""
        kind = {"all": ' class="sum"', "": ' class="also"'}.get(group.colour, "")
        sample = "" if kind else '<i class="swatch %s">x</i>' % group.colour
        row = "".join(self.share(group.cells, it) for it in tables)
        return '<tr%s><th scope="row">%s%s</th><td>%s</td>%s</tr>' % (
            kind, sample, safe(group.name), grouped(len(group.cells)), row)

    def share(self, cells: List[int], table: Table) -> str:
        """The records of cells of a table's lowest codes, and their share of the total."""
        facts = self.release.facts or []
        records, value = hidden_part(self.release, cells, table)
        return "<td>%s</td><td>%s</td>" % (grouped(records), percent(value, facts[0].value))

    def read(self) -> str:
        """What was read, so that shifted columns are seen."""
        if not self.release.facts:
            return ""
        heads = ("variable", "lowest codes", "most records", "fewest records",
                 "codes without records")
        row = "".join('<th scope="col">%s</th>' % it for it in heads)
        lines = [
            '<section aria-labelledby="read"><h2 id="read">What was read</h2>',
            '<p class="small">A column that is read from the wrong place shows here: codes that '
            "shouldn\u2019t be there, or records that all have one code.</p>",
            '<div class="scroll"><table class="plain"><thead><tr>%s</tr></thead><tbody>' % row]
        lines += [self.variable(it, self.release.facts) for it in self.book.variables]
        return "\n".join([*lines, "</tbody></table></div></section>"])

    def variable(self, variable: str, facts: List[Fact]) -> str:
        """The line of a variable: its lowest codes, and which have most and fewest records."""
        k, book = self.book.variables.index(variable), self.book
        totals = tuple(book.codes[it][0] for it in book.variables)
        codes = [it for it in book.codes[variable][1:] if it not in book.inner(variable)]
        counts = {
            it: facts[book.number[totals[:k] + (it,) + totals[k + 1:]]].records for it in codes}
        there = sorted((it for it in codes if counts[it]), key=lambda it: -counts[it])
        said = ["\u2013", "\u2013"]
        if there:
            # Of codes with as many records the first one is named, at either end.
            fewest = next(it for it in there if counts[it] == counts[there[-1]])
            said = [
                "%s: %s" % (self.labelled(variable, it), grouped(counts[it]))
                for it in (there[0], fewest)]
        if len(there) > 1 and counts[there[0]] == counts[there[-1]]:
            said = ["%s in each code" % grouped(counts[there[0]]), "\u2013"]
        empty = [it for it in codes if not counts[it]]
        none = "none" if not empty else "%d: %s" % (len(empty), some(map(safe, empty), 6))
        row = "".join("<td>%s</td>" % it for it in (grouped(len(codes)), *said, none))
        return '<tr><th scope="row">%s</th>%s</tr>' % (safe(variable), row)
