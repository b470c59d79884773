"""What the page's script knows, as JSON: each value once, in columns of text, so that amounts of
any size stay exact."""

import json
from typing import Any, Dict, Iterable, List, Optional

from argus_office.paging.amounts import Fact
from argus_office.paging.release import Release
from argus_office.paging.sheets import Sheets, layout_of
from argus_office.paging.texts import pieces_of, visible
from argus_office.paging.words import Words

# The columns of facts that stand on the page for every cell.
OF_ALL = ("records", "largest", "second")


def column(items: Iterable[object]) -> str:
    """A column as one text: its items with spaces between."""
    return " ".join(map(str, items))


def runs_of(numbers: List[int]) -> List[int]:
    """Numbers as runs: a first number, a step and a count each, one behind the other."""
    found: List[int] = []
    at = 0
    while at < len(numbers):
        step = numbers[at + 1] - numbers[at] if at + 1 < len(numbers) else 1
        end = at + 1
        while end < len(numbers) and numbers[end] - numbers[end - 1] == step:
            end += 1
        found += [numbers[at], step, end - at]
        at = end
    return found


def as_script(said: Dict[str, Any]) -> str:
    """Data as JSON in which no mark can begin."""
    text = json.dumps(said, ensure_ascii=False, separators=(",", ":"))
    for mark in "<>&\u2028\u2029":
        text = text.replace(mark, "\\u%04x" % ord(mark))
    return '<script type="application/json" id="data">%s</script>' % text


class Data(Sheets):
    """The data of a page. That of a public page says where which cell stands, and nothing else."""

    def data(self) -> str:
        """The data as the part of the page that holds them."""
        said: Dict[str, Any] = {"places": self.places()}
        if not self.release.is_public:
            said.update(self.secret())
        return as_script(said)

    def places(self) -> Dict[str, Any]:
        """The variables, and for each table its codes, how it is laid out and the numbers of its
        cells as they stand on the page."""
        book = self.book
        tables = []
        for table in book.tables:
            layout = layout_of(table)
            tables.append({
                "number": table.number,
                "variables": [book.variables.index(it) for it in table.variables],
                "codes": [[visible(code) for code in codes] for codes in table.codes],
                "down": layout.down, "across": layout.across, "others": layout.others,
                "cells": runs_of(self.order(table)),
            })
        names = [visible(it) for it in book.variables]
        return {"variables": names, "ambiguous": book.is_ambiguous, "tables": tables}

    def secret(self) -> Dict[str, Any]:
        """What is for the office alone."""
        release = self.release
        said: Dict[str, Any] = {"decimals": release.amounts.decimals, "base": "", "facts": {}}
        if release.job.base:
            said["base"] = str(release.job.base * 10**release.amounts.decimals)
        if release.facts:
            said["facts"] = facts_of(release.facts, release)
        said["ranges"] = self.ranges()
        words = Words(release)
        by = {it: release.came_by(it) == "primary" for it in release.hidden}
        said["why"] = [
            pieces_of(words.sensitive(it) if by[it] else words.how(it)) for it in release.hidden]
        said["need"] = [0 if by[it] else pieces_of(words.need(it)) for it in release.hidden]
        said["worlds"] = [
            [it.subject, 1 if it.side == "above" else -1, str(it.den),
             column("%d:%d" % move for move in it.moves)]
            for it in release.certificate.worlds]
        return said

    def ranges(self) -> Optional[List[str]]:
        """Both ends of the interval of each hidden cell: whole units or a fraction, - where there
        is none, and an open high as a star."""
        found = self.release.ranges
        if not found:
            return None
        lows, highs = [], []
        for cell in self.release.hidden:
            low, high = found.get(cell, (None, None))
            lows.append("-" if low is None else str(low))
            highs.append("*" if high is None else str(high))
        return [column(lows), column(highs)]


def facts_of(facts: List[Fact], release: Release) -> Dict[str, Any]:
    """The columns of the facts: of all cells, and of the hidden ones what stands in no table."""
    hidden = [facts[it] for it in release.hidden]
    said: Dict[str, Any] = {
        "records": column(it.records for it in facts),
        "largest": column(it.largest for it in facts),
        "second": column(it.second for it in facts),
        "value": column(it.value for it in (hidden if release.job.base is None else facts)),
        "up": column(it.up for it in hidden),
        "down": column(it.down for it in hidden),
    }
    status: Dict[str, List[int]] = {}
    rules: Dict[str, List[int]] = {}
    for cell, fact in enumerate(facts):
        if fact.status != "free":
            status.setdefault(fact.status, []).append(cell)
        if fact.rules:
            rules.setdefault(visible(" ".join(fact.rules)), []).append(cell)
    said["status"] = {it: column(cells) for it, cells in status.items()}
    said["rules"] = {it: column(cells) for it, cells in rules.items()}
    return said
