"""The method text of a release for a quality report, by a template that an office can translate.

A template is a text in paragraphs. A paragraph may begin with a line in brackets that says when it
is there, and has fields in braces, which stand for numbers and names of the release.
"""

import os
import re
from typing import Callable, Dict, List, Mapping, NamedTuple, Optional

from argus_office.paging.files import Stop, text_in
from argus_office.paging.release import Release
from argus_office.paging.summary import hidden_part
from argus_office.paging.tables import Table
from argus_office.paging.texts import grouped, percent, some, visible
from argus_office.reading.arguments import Rule

# The template in English, beside this module.
ENGLISH = os.path.join(os.path.dirname(os.path.realpath(__file__)), "method.txt")
FIELD = re.compile(r"\{([a-z_]*)\}")
# What the numbers of a rule are called in a template.
NUMBERS = {"FREQ": "nr", "NK": "nk", "P": "p", "PQ": "pq", "ZERO": "r"}
Fields = Mapping[str, str]


class Paragraph(NamedTuple):
    """A paragraph of a template: where it begins, when it is there, and its text."""

    line: int
    when: str
    text: str


def paragraphs_of(text: str) -> List[Paragraph]:
    """The paragraphs of a template, with the numbers of their lines from 1."""
    found: List[Paragraph] = []
    lines: List[str] = []
    for number, line in enumerate([*text.splitlines(), ""], 1):
        if line.strip():
            lines.append(line.strip())
        elif lines:
            begin = number - len(lines)
            is_bracketed = lines[0].startswith("[") and lines[0].endswith("]")
            when = lines.pop(0)[1:-1].strip() if is_bracketed else "always"
            found.append(Paragraph(begin, " ".join(when.split()), "\n".join(lines)))
            lines = []
    return found


def numbers_of(rule: Rule) -> Dict[str, str]:
    """A rule's numbers by what a template calls them."""
    return dict(zip(NUMBERS[rule.word], map(str, rule.numbers)))


class Method:
    """What a template may say of a release. Raises Stop where the listing of the cells is
    lacking."""

    def __init__(self, release: Release) -> None:
        if release.facts is None:
            raise Stop(" ".join(release.notes) or "the listing of the cells is lacking")
        self.release, self.facts, self.book = release, release.facts, release.book
        self.rules = release.job.source.rules()
        self.method = release.job.source.method().word

    def fields(self) -> Dict[str, str]:
        """The fields of every paragraph."""
        release, book = self.release, self.book
        hidden, cells = len(release.hidden), len(book.names)
        sensitive = sum(1 for it in self.facts if it.status == "primary")
        return {
            "response": visible(book.tables[0].response),
            "tables": visible("; ".join(some(it.spans()) for it in book.tables)),
            "records": grouped(self.facts[0].records),
            "cells": grouped(cells),
            "hidden": grouped(hidden),
            "sensitive": grouped(sensitive),
            "more": grouped(max(hidden - sensitive, 0)),
            "share_cells": percent(hidden, cells),
            "base": str(release.job.base or 0),
        }

    def fields_of_table(self, table: Table) -> Dict[str, str]:
        """The fields of a paragraph that stands for each table."""
        within = [it for it in self.release.hidden if table.number in self.book.within[it]]
        records, value = hidden_part(self.release, within, table)
        total = self.facts[0]
        return {
            "table": str(table.number),
            "spans": visible(some(table.spans())),
            "table_response": visible(table.response),
            "table_hidden": grouped(len(within)),
            "table_cells": grouped(len(table.shown)),
            "share_records": percent(records, total.records),
            "share_value": percent(value, total.value),
        }

    def times(self, paragraph: Paragraph) -> List[Fields]:
        """The fields of each time that a paragraph is there, besides those of every one."""
        word, _, name = paragraph.when.partition(" ")
        if paragraph.when == "each table":
            is_hiding = bool(self.release.hidden)
            return [self.fields_of_table(it) for it in self.book.tables] if is_hiding else []
        if word == "rule" and name in NUMBERS:
            return [numbers_of(it) for it in self.rules if it.word == name]
        if word == "method" and name in ("MOD", "GH", "RND"):
            is_hiding = name == "RND" or bool(self.release.hidden)
            return [{}] if self.method == name and is_hiding else []
        holds = self.conditions().get(paragraph.when)
        if holds is None:
            raise Stop("line %d: [%s] is no condition of a template" % (
                paragraph.line, visible(paragraph.when)))
        return [{}] if holds() else []

    def conditions(self) -> Dict[str, Callable[[], bool]]:
        """When a paragraph is there, by its first line."""
        job = self.release.job
        return {
            "always": lambda: True,
            "hidden": lambda: bool(self.release.hidden),
            "none hidden": lambda: not self.release.hidden and job.base is None,
            "rounded": lambda: job.base is not None,
            "weighted": job.is_weighted,
            "stated": lambda: bool(job.source.of("APRIORI")),
            "contributors": lambda: bool(job.source.of("CONTRIBUTORS")),
        }

    def text(self, template: str) -> str:
        """The text by a template. Raises Stop where that has a field or a condition that there
        isn't."""
        always, found = self.fields(), []
        for paragraph in paragraphs_of(template):
            for more in self.times(paragraph):
                found.append(filled(paragraph, {**always, **more}))
        return "\n\n".join(found) + "\n"


def filled(paragraph: Paragraph, fields: Fields) -> str:
    """A paragraph with its fields filled in."""

    def said(name: "re.Match[str]") -> str:
        if name[1] not in fields:
            raise Stop("line %d: %s is no field of a paragraph [%s]" % (
                paragraph.line, name[0], paragraph.when))
        return fields[name[1]]

    return FIELD.sub(said, paragraph.text)


def template_in(name: Optional[str]) -> str:
    """The text of a template, the English one where no name is given."""
    return text_in(name or ENGLISH)


def method_text(release: Release, name: Optional[str]) -> str:
    """The method text of a release, by the template in a file, or in English."""
    template = template_in(name)
    try:
        return Method(release).text(template)
    except Stop as fault:
        if name and str(fault).startswith("line "):
            raise Stop("%s, %s" % (name, fault)) from fault
        raise
