"""The codes of a variable and their tree: flat, by digits, from a hierarchy file, or by a column
that says the group of each code.

The limits are those of argus: 5,000 codes besides the total, nine levels, and no record with a code
that has others below it.
"""

import os
from collections import Counter
from itertools import compress
from typing import Dict, Iterable, List, NamedTuple, Optional, Sequence, Set, Tuple

from argus_office.starting.csv_file import BLANKS, BYTE_ORDER_MARK, Records, Source
from argus_office.starting.refusals import Refusal, shown
from argus_office.starting.tree_files import MOST_LEVELS, read_text, read_tree, tree_text

MOST_CODES = 5000
LEADS = ("@", "#", "~", "^", "%", "@@", "@#", "@~", "@#~^%")


class Tree(NamedTuple):
    """What the metadata say of a variable's tree, and how many codes besides the total each level
    of it has, from the first.
    """

    sizes: Sequence[int]
    levels: Sequence[int] = ()
    lead: str = "@"
    # The hierarchy file as it is named, and its text where start has to write it.
    file: str = ""
    text: Optional[str] = None
    # The code list as it is named, which gives the order of codes that are all below the total.
    order: str = ""
    # The parent of each code that isn't right below the total, where no levels say it.
    parents: Optional[Dict[str, str]] = None

    def chain(self, code: str) -> List[str]:
        """A code and those above it without the total, from the one right below the total on."""
        if self.levels:
            ends = [sum(self.levels[: k + 1]) for k in range(len(self.levels))]
            return [*(code[:end] for end in ends if end < len(code)), code]
        found = [code]
        while self.parents and self.parents.get(found[0]):
            found.insert(0, self.parents[found[0]])
        return found

    @property
    def codes(self) -> int:
        """How many codes it has besides the total."""
        return sum(self.sizes)

    def within(self, last: int) -> int:
        """How many of them lie no deeper than a level."""
        return sum(self.sizes[:last])


def depth_in(parents: Dict[str, str], code: str) -> int:
    """How many steps it is from a code up to the total, which is the parent ""."""
    depth = 1
    while parents[code]:
        code, depth = parents[code], depth + 1
    return depth


def sizes_of(depths: Iterable[int]) -> List[int]:
    """How many codes each level has, by the levels of the codes."""
    counts = Counter(depths)
    return [counts[it] for it in range(1, max(counts, default=0) + 1)]


def fit_path(path: str, out: str) -> str:
    """The name of a file as metadata in a folder can have it; empty where they can't."""
    there = os.path.relpath(path, out)
    is_plain = there.isascii() and there.isprintable() and '"' not in there
    return there if is_plain and len(there) <= 255 else ""


def listed_codes(text: str, total: str) -> List[str]:
    """The codes of a code list, as argus reads it: up to the first comma, without one pair of
    quotes, and each once.
    """
    found: Dict[str, None] = {}
    for line in text.split("\n"):
        code = line.rstrip("\r").partition(",")[0].strip(BLANKS)
        if len(code) > 1 and code[0] == code[-1] == '"':
            code = code[1:-1]
        if code and code != total:
            found[code] = None
    return list(found)


class Variable:
    """A column that spans a table: its codes as the records have them."""

    def __init__(
        self, source: Source, records: Records, column: int, kept: List[bool], missing: Set[str],
        total: str
    ) -> None:
        self.source, self.records, self.column = source, records, column
        self.kept, self.total = kept, total
        self.codes, self.words = records.columns[column], missing
        self.shown = shown(source.names[column])
        self.counts = Counter(compress(self.codes, kept))
        self.all = set(self.codes)
        self.missing = sorted((it for it in self.all if it in missing), key=self.codes.index)
        # Codes that a code list lacks, and codes of it that no record has.
        self.unlisted: List[str] = []
        self.unused: List[str] = []
        self.check()

    def letters(self, code: str) -> str:
        """A code, fit for one line of a terminal."""
        return shown(self.source.decoded(code, 0, self.shown)) or "(empty)"

    def refuse(self, codes: Iterable[str], what: str, do: str) -> Refusal:
        """A refusal of the one of some codes that comes first in the file, among the records that
        count where one of these has it;
        `%s` in the text is the code."""
        wanted = set(codes)
        row = next(
            k for k, it in enumerate(self.codes)
            if it in wanted and (self.kept[k] or it not in self.counts)
        )
        self.source.decoded(self.codes[row], self.records.lines[row], self.shown)
        return self.source.refuse(
            what.replace("%s", self.letters(self.codes[row])), do, self.records.lines[row],
            self.shown
        )

    def check(self) -> None:
        """Refuses codes that argus doesn't take, whatever their tree."""
        self.too_many(len(self.counts))
        foreign = [it for it in self.all if not self.source.is_text(it)]
        if foreign:
            raise self.refuse(foreign, "%s", "")
        broken = [it for it in self.all if "\n" in it or "\r" in it]
        if broken:
            raise self.refuse(
                broken, "the code %s has a line break in it",
                "A record is one line: take the break out"
            )
        wide = [it for it in self.all if len(it) > 255]
        if wide:
            raise self.refuse(
                wide, "the code %s has more than 255 bytes",
                "Use a shorter code, and keep the long text elsewhere"
            )
        if self.total in self.counts:
            do = "Take totals out of the CSV, since argus adds up itself; if it is a code like " \
                "others, call the total otherwise: --total %s=All" % self.shown
            raise self.refuse([self.total], "%s is the code of the total", do)
        if len(self.missing) > 2:
            do = "argus takes two. Write one of them for all in the CSV, or leave out a --missing"
            raise self.refuse([self.missing[2]],
                              "%s is the third code for no answer in this column", do)

    def flat(self) -> Tree:
        """All codes right below the total."""
        return Tree([len(self.counts)])

    def ordered(self, path: str, out: str) -> Tree:
        """All codes right below the total, in the order of a code list of the office.

        It is named where it stands; one with a byte order mark is written anew.
        """
        text = read_text(path)
        marked = text.startswith(BYTE_ORDER_MARK)
        text = text[3:] if marked else text
        listed = listed_codes(text, self.total)
        self.unlisted = sorted((it for it in self.counts if it not in listed and it not in
                                self.missing), key=self.codes.index)
        self.unused = [it for it in listed if it not in self.counts]
        count = len({*listed, *self.counts})
        self.too_many(count)
        there = "" if marked else fit_path(path, out)
        return Tree([count], order=there, text=None if there else text)

    def too_many(self, count: int) -> None:
        """Refuses more codes than argus takes, parts of codes and listed codes among them."""
        if count > MOST_CODES:
            do = "A column of names or numbers of firms can't span a table: take one of classes"
            raise self.source.refuse(
                "{:,} codes, and argus takes {:,}".format(count, MOST_CODES), do, column=self.shown
            )

    # Codes by digits.

    def by_levels(self, widths: Sequence[int]) -> Tree:
        """The tree of codes by digits; widths are the bytes of each level."""
        ends = [sum(widths[: k + 1]) for k in range(len(widths))]
        self.fit_levels(ends[-1])
        nodes: Set[str] = set(self.counts)
        above: Set[str] = set()
        for code in self.counts:
            above.update(code[:end] for end in ends if 0 < end < len(code))
        totals = [
            it for it in self.counts
            if any(it[:end] == self.total for end in ends if end < len(it))
        ]
        if totals:
            raise self.refuse(
                totals, "the upper level of %s is the code of the total",
                "Call the total otherwise: --total %s=All" % self.shown
            )
        inner = [it for it in self.counts if it in above]
        if inner:
            raise self.refuse(
                inner, "%s has codes below it, so its value would belong to none of these",
                "Give the record a code of the lowest level"
            )
        self.too_many(len(nodes | above))
        return Tree(
            sizes_of(1 + sum(end < len(code) for end in ends) for code in nodes | above),
            tuple(widths)
        )

    def fit_levels(self, width: int) -> None:
        """Refuses codes that are longer than the levels together, or have a blank inside."""
        long = [it for it in self.all if len(it) > width]
        if long:
            raise self.refuse(
                long, "%%s is longer than the levels, which have %d bytes together" % width,
                "Correct --levels %s=.. or the code" % self.shown
            )
        blank = [it for it in self.all if " " in it or "\t" in it]
        if blank:
            raise self.refuse(
                blank, "%s has a blank in it, and codes by digits have none", "Correct the code"
            )

    # A hierarchy file.

    def listed(self, path: str, lead: str, out: str) -> Tree:
        """The tree of a hierarchy file of the office.

        It is named where it stands; one with a byte order mark is written anew.
        """
        text = read_text(path)
        marked = text.startswith(BYTE_ORDER_MARK)
        text = text[3:] if marked else text
        parents = read_tree(text, lead, self.total, os.path.basename(path))
        self.fit_tree(
            parents, shown(os.path.basename(path)),
            "Correct the code, or add it to the hierarchy file"
        )
        there = "" if marked else fit_path(path, out)
        return Tree(
            self.with_missing(parents),
            lead=lead,
            file=there,
            text=None if there else text,
            parents=parents
        )

    def with_missing(self, parents: Dict[str, str]) -> List[int]:
        """How many codes each level has with those that mean no answer, which come right below the
        total.
        """
        more = [it for it in self.missing if it not in parents]
        self.too_many(len(parents) + len(more))
        return sizes_of([depth_in(parents, it) for it in parents] + [1] * len(more))

    def fit_tree(self, parents: Dict[str, str], name: str, do: str) -> None:
        """Refuses codes that a hierarchy file doesn't have, or has with others below them."""
        unknown = [it for it in self.counts if it not in parents and it not in self.missing]
        if unknown:
            raise self.refuse(unknown, "the code %s isn't in " + name, do)
        inner = set(parents.values()) - {""}
        upper = [it for it in self.counts if it in inner]
        if upper:
            raise self.refuse(
                upper, "%s has codes below it, so its value would belong to none of these",
                "Give the record a code of the lowest level"
            )

    # Columns that say the group of each code.

    def by_parents(self, columns: Sequence[int]) -> Tree:
        """The tree in which each code is below its group, the group below its own, and so on: as
        the columns say, record by record.
        """
        parents: Dict[str, str] = {}
        chain = [self.column, *columns]
        self.check_groups(columns)
        for below, above in zip(chain, columns):
            self.take_groups(parents, below, above)
        for code in {it for it in self.groups(columns[-1]) if it not in parents}:
            parents[code] = ""
        self.apart(parents, columns)
        lead = next((it for it in LEADS if not any(code.startswith(it) for code in parents)), "")
        if not lead:
            raise self.source.refuse(
                "its codes begin with every lead that start knows",
                "Write the hierarchy file by hand",
                column=self.shown
            )
        text = tree_text(parents, lead)
        return Tree(self.with_missing(parents), lead=lead, text=text, parents=parents)

    def is_missing(self, row: int) -> bool:
        """Whether a record doesn't count, or has no code."""
        return self.codes[row] in self.missing or not self.kept[row]

    def groups(self, column: int) -> Set[str]:
        """The codes of a column of groups, of records that count."""
        return {
            it
            for row, it in enumerate(self.records.columns[column])
            if not self.is_missing(row)
        }

    def check_groups(self, columns: Sequence[int]) -> None:
        """The groups are letters of the encoding, on one line each, and there are at most nine
        levels.
        """
        if len(columns) >= MOST_LEVELS:
            raise self.source.refuse(
                "more than nine levels", "Leave out a --parent", column=self.shown
            )
        for column in columns:
            lines: Dict[str, int] = {}
            for row, group in enumerate(self.records.columns[column]):
                lines.setdefault(group, self.records.lines[row])
            for group, line in lines.items():
                self.source.decoded(group, line, shown(self.source.names[column]))
                if "\n" in group or "\r" in group:
                    raise self.source.refuse(
                        "the code %s has a line break in it" % self.letters(group),
                        "A code is in one line: take the break out", line,
                        shown(self.source.names[column])
                    )

    def take_groups(self, parents: Dict[str, str], below: int, above: int) -> None:
        """Notes for each code of a column its group in the next one; a code with two groups is
        refused by its lines.
        """
        codes, groups = self.records.columns[below], self.records.columns[above]
        seen: Dict[str, Tuple[str, int]] = {}
        names = self.source.names
        for row, code in enumerate(codes):
            group = groups[row]
            if self.is_missing(row):
                if self.kept[row] and group not in self.words:
                    do = "Give the code, or leave the group empty"
                    raise self.source.refuse(
                        "no code, and column %s says %s" %
                        (shown(names[above]), self.letters(group)), do, self.records.lines[row],
                        self.shown
                    )
                continue
            if seen.setdefault(code, (group, row))[0] != group:
                self.two_groups(code, seen[code], group, row, above)
            if group in self.words or group == self.total:
                what = "the group of %s is %s" % (
                    self.letters(code),
                    self.letters(group) if group != self.total else "the code of the total"
                )
                raise self.source.refuse(
                    what, "Give the group of this code", self.records.lines[row],
                    shown(names[above])
                )
        parents.update((code, group) for code, (group, _) in seen.items() if code not in parents)

    def two_groups(
        self, code: str, earlier: Tuple[str, int], group: str, row: int, above: int
    ) -> None:
        """Refuses a code with two groups."""
        lines = self.records.lines
        what = "%s is in the group %s, and in line %d in %s" % (
            self.letters(code), self.letters(group), lines[earlier[1]], self.letters(earlier[0])
        )
        raise self.source.refuse(
            what, "A code has one group: correct one of the two", lines[row],
            shown(self.source.names[above])
        )

    def apart(self, parents: Dict[str, str], columns: Sequence[int]) -> None:
        """No code of one level is a code of another, or means no answer."""
        seen: Dict[str, int] = {}
        names = self.source.names
        for column in (self.column, *columns):
            for row, code in enumerate(self.records.columns[column]):
                if not self.is_missing(row) and seen.setdefault(code, column) != column:
                    what = "%s is a code of column %s too" % (
                        self.letters(code), shown(names[seen[code]])
                    )
                    raise self.source.refuse(
                        what, "Codes of all levels have to differ: rename one",
                        self.records.lines[row], shown(names[column])
                    )
        for code in self.counts:
            if code in self.missing and code in parents:
                raise self.refuse([code], "%s means no answer and is a group too",
                                  "Rename the group")
