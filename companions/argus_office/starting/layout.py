"""The microdata and the metadata: where each variable is in a record, and the bytes of both files.

A record has the variables of codes from the left, padded with blanks behind, then the weight and
the response, padded in front. Between two fields is one blank. Positions count bytes, from 1.
"""

from typing import Iterator, List, NamedTuple, Optional, Sequence

from argus_office.starting.amounts import written
from argus_office.starting.refusals import Refusal
from argus_office.starting.trees import Tree

LONGEST_RECORD = 1000
LARGEST_FILE = 268435456


class Field(NamedTuple):
    """A variable of the metadata, with its fields in the order of the records, each as it is
    written.
    """

    name: str
    texts: Sequence[str]
    missing: Sequence[str]
    is_number: bool
    # Keyword lines below the variable's line.
    keywords: Sequence[str]

    def width(self) -> int:
        """The bytes of the field: those of its longest text, and those of its levels."""
        return max(1, max(map(len, self.texts), default=1), self.least())

    def least(self) -> int:
        """The sum of the levels, which the width has to be."""
        levels = [it for it in self.keywords if it.startswith("<HIERLEVELS>")]
        return sum(map(int, levels[0].split()[1:])) if levels else 1


def word(text: str) -> str:
    """A word of the metadata: in quotes where it is empty, has a blank or begins like a keyword or
    a quoted word.
    """
    return '"%s"' % text if not text or " " in text or "\t" in text or text[0] in '<"' else text


def code_field(
    name: str, texts: Sequence[str], missing: Sequence[str], total: str, tree: Tree
) -> Field:
    """A field of codes, padded behind; its keywords say what its tree is."""
    lines = ["<RECODEABLE>"]
    if tree.levels:
        lines += ["<HIERARCHICAL>", "<HIERLEVELS> " + " ".join(map(str, tree.levels))]
    elif tree.order:
        lines.append('<CODELIST> "%s"' % tree.order)
    elif tree.file:
        lines += ["<HIERARCHICAL>", '<HIERCODELIST> "%s"' % tree.file]
        lines += ["<HIERLEADSTRING> " + tree.lead] if tree.lead != "@" else []
    lines += ['<TOTCODE> "%s"' % total] if total != "Total" else []
    return Field(name, texts, missing, False, lines)


def number_field(
    name: str, units: Sequence[Optional[int]], decimals: int, texts: Sequence[str], is_weight: bool
) -> Field:
    """A field of numbers.

    Where there is no number, the word of the CSV stands and is a missing code; a word that could be
    read as a number, a third one, and a weight that is missing are left blank.
    """
    absent = sorted({it for it, number in zip(texts, units) if number is None and it})
    kept = [it for it in absent if not is_weight and it.strip("0123456789.")][:2]
    fields = [(it if it in kept else "") if number is None else written(number, decimals)
              for it, number in zip(texts, units)]
    lines = ["<NUMERIC>"]
    lines += ["<DECIMALS> %d" % decimals] if decimals else []
    lines += ["<WEIGHT>"] if is_weight else []
    return Field(name, fields, kept, True, lines)


class Layout:
    """The fields with their places."""

    def __init__(self, fields: Sequence[Field], file: str) -> None:
        self.fields = fields
        self.widths = [it.width() for it in fields]
        gap = 1 if sum(self.widths) + len(fields) - 1 <= LONGEST_RECORD else 0
        self.between = " " * gap
        self.starts = [1 + sum(self.widths[:k]) + gap * k for k in range(len(fields))]
        self.length = self.starts[-1] + self.widths[-1] - 1
        count = len(fields[0].texts)
        if self.length > LONGEST_RECORD:
            longest = "; ".join("%s %d" % (it.name, wide) for it, wide in zip(fields, self.widths))
            raise Refusal(
                "a record would have %d bytes, and argus takes 1,000 (%s)" % (self.length, longest),
                "Use shorter codes", file
            )
        if count * (self.length + 1) > LARGEST_FILE:
            raise Refusal(
                "the microdata would have {:,} bytes, and argus reads {:,}".format(
                    count * (self.length + 1), LARGEST_FILE
                ), "Use shorter codes", file
            )

    def metadata(self) -> str:
        """The text of the metadata."""
        lines: List[str] = []
        for field, start, width in zip(self.fields, self.starts, self.widths):
            lines.append(
                " ".join([word(field.name),
                          str(start),
                          str(width), *map(word, field.missing)])
            )
            lines += field.keywords
        return "".join(it + "\n" for it in lines)

    def records(self) -> Iterator[str]:
        """The lines of the microdata, one after the other."""
        forms = [
            "%%%s%ds" % ("" if it.is_number else "-", width)
            for it, width in zip(self.fields, self.widths)
        ]
        form = self.between.join(forms) + "\n"
        for texts in zip(*(it.texts for it in self.fields)):
            yield form % texts
