"""Numbers of a CSV: which marks they have, and what they are in whole units.

No number is a floating-point number here: a value is whole digits and the number of those behind
the point.
"""

import re
from collections import Counter
from fractions import Fraction
from typing import Dict, List, NamedTuple, Optional, Sequence, Set, Tuple

from argus_office.starting.csv_file import Records, Source
from argus_office.starting.refusals import Refusal, shown

# Marks that stand between thousands: besides point and comma a blank, no-break and thin blanks, and
# apostrophes.
THOUSANDS = (",", ".", " ", "\u00a0", "\u202f", "\u2009", "'", "\u2019")
LONGEST = 60
# How many lines with the same fault a message names.
FEW = 5
GREATEST_EXPONENT = 40
# What stands before a number that is negative, an opening bracket too.
NEGATIVE = "-\u2212("
DIGITS = str.maketrans("123456789", "000000000")


class Marks(NamedTuple):
    """The decimal mark, and the mark between thousands or none."""

    decimal: str
    thousands: Optional[str]


class Number(NamedTuple):
    """digits / 10^behind."""

    digits: int
    behind: int


ALL_MARKS = [Marks(decimal, it) for decimal in ".," for it in (None, *THOUSANDS) if it != decimal]


def is_spelled(text: str, marks: Marks, is_strict: bool = False) -> bool:
    """Whether a text is a number with these marks; strictly, whether it has every mark between
    thousands that it could have.
    """
    decimal = re.escape(marks.decimal)
    whole = "[0-9]{1,3}" if is_strict and marks.thousands else "[0-9]+"
    if marks.thousands:
        whole = "(?:[1-9][0-9]{0,2}(?:%s[0-9]{3})+|%s)" % (re.escape(marks.thousands), whole)
    return re.fullmatch(
        r"\+?(?:%s(?:%s[0-9]*)?|%s[0-9]+)(?:[eE][+-]?[0-9]+)?" % (whole, decimal, decimal), text
    ) is not None


def number_of(text: str, marks: Marks) -> Optional[Number]:
    """The number that a text with these marks spells; none where it is longer than any that argus
    takes.
    """
    if len(text) > LONGEST:
        return None
    mantissa, _, exponent = text.lower().partition("e")
    if marks.thousands:
        mantissa = mantissa.replace(marks.thousands, "")
    whole, _, rest = mantissa.partition(marks.decimal)
    power = int(exponent) if exponent else 0
    if abs(power) > GREATEST_EXPONENT:
        return None
    digits, behind = int(whole + rest), len(rest) - power
    return Number(digits * 10 ** -behind, 0) if behind < 0 else Number(digits, behind)


def shape(text: str) -> str:
    """What decides by which marks a text is a number: its marks, with all digits alike but a zero
    at the front.
    """
    return ("z" if text[0] == "0" else "") + text.translate(DIGITS)


def rounded(number: Number, decimals: int) -> Number:
    """The number with no more decimals than these; what is exactly between two goes up."""
    digits, behind = number
    if behind <= decimals:
        return number
    step = 10 ** (behind - decimals)
    return Number((2 * digits + step) // (2 * step), decimals)


def is_negative(text: str) -> bool:
    """Whether a text is a number with a minus before it, or in brackets."""
    bare = text[1:].rstrip(")").strip(" ")
    return text[:1] in NEGATIVE and any(is_spelled(bare, it) for it in ALL_MARKS)


def unit_of(text: str) -> Tuple[str, str]:
    """The number and the unit of a text such as `1.127,84 \u20ac`; empty where it is none."""
    digits = [k for k, it in enumerate(text) if it in "0123456789"]
    if not digits or len(text) > LONGEST:
        return "", ""
    before, number = text[: digits[0]].lstrip("+" + NEGATIVE), text[digits[0]: digits[-1] + 1]
    behind = text[digits[-1] + 1:].strip()
    is_apart = not before or not before[-1].isalnum()
    unit = " ".join(it for it in (before.strip(), behind) if it)
    is_unit = is_apart and any(is_spelled(number, it) for it in ALL_MARKS)
    return (number, unit) if unit and is_unit else ("", "")


class Numbers:
    """The columns of numbers of one CSV: they have the same marks."""

    def __init__(
        self, source: Source, records: Records, columns: Sequence[int], missing: Set[str],
        decimal: Optional[str]
    ) -> None:
        self.source, self.records, self.missing = source, records, missing
        self.first = sorted(self.first_of_shapes(columns))
        self.left = [it for it in ALL_MARKS if decimal is None or it.decimal == decimal]
        self.marks = self.settle()

    def letters(self, column: int, row: int, text: str) -> str:
        """The letters of a field."""
        return self.source.decoded(text, self.records.lines[row], shown(self.source.names[column]))

    def first_of_shapes(self, columns: Sequence[int]) -> List[Tuple[int, int, str]]:
        """The first number of each shape: its row, its column and its text."""
        found: Dict[str, Tuple[int, int, str]] = {}
        for column in columns:
            for row, text in enumerate(self.records.columns[column]):
                if text in self.missing:
                    continue
                kind = shape(text)
                if kind not in found or (row, column) < found[kind][:2]:
                    found[kind] = (row, column, text)
        return list(found.values())

    def refuse(self, row: int, column: int, what: str, do: str) -> Refusal:
        """A refusal of the field in a row and a column."""
        return self.source.refuse(
            what, do, self.records.lines[row], shown(self.source.names[column])
        )

    def settle(self) -> Marks:
        """The marks by which all are numbers; the first at odds is refused, and the first that
        would be two numbers.
        """
        texts: List[Tuple[int, int, str]] = []
        kept = self.left
        for row, column, raw in self.first:
            text = self.letters(column, row, raw)
            fitting = [it for it in kept if is_spelled(text, it)]
            if not fitting:
                raise self.no_number(row, column, text, texts)
            kept = fitting
            texts.append((row, column, text))
        for row, column, text in texts:
            if len({self.value(text, it) for it in kept}) > 1:
                do = "Say which mark is before decimals: --decimal . or --decimal ,"
                raise self.refuse(
                    row, column,
                    "%s is two numbers, by whether its mark is before decimals or between thousands"
                    % shown(text), do
                )
        marks = next((it for it in kept if it.thousands is None), kept[0])
        for row, column, text in texts:
            if not is_spelled(text, marks, True):
                do = (
                    "Write marks between thousands everywhere or nowhere, or say which mark is "
                    "before decimals (--decimal)"
                )
                raise self.refuse(
                    row, column,
                    "%s has no mark between thousands, and others have one" % shown(text), do
                )
        return marks

    def value(self, text: str, marks: Marks) -> Tuple[int, int]:
        """A form of the number that equal numbers share."""
        number = number_of(text, marks)
        if number is None:
            return (0, -1)
        digits, behind = number
        while behind and digits % 10 == 0:
            digits, behind = digits // 10, behind - 1
        return (digits, behind)

    def no_number(
        self, row: int, column: int, text: str, before: Sequence[Tuple[int, int, str]]
    ) -> Refusal:
        """What is wrong with the first field that is no number by the marks of those before it."""
        if is_negative(text):
            return self.negative(row, column, text)
        at_odds = [it for it in self.left if is_spelled(text, it)]
        if at_odds:
            earlier = next(
                (it for it in before if not any(is_spelled(it[2], marks) for marks in at_odds)),
                before[0] if before else (row, column, text)
            )
            what = "%s has its marks otherwise than %s in line %d" % (
                shown(text), shown(earlier[2]), self.records.lines[earlier[0]]
            )
            return self.refuse(
                row, column, what, "Write all numbers of the file with the same marks"
            )
        if text == "":
            return self.refuse(row, column, "the field is empty", "Give the number")
        number, unit = unit_of(text)
        if unit:
            what = "%s isn't a number: it has the unit %s" % (shown(text), shown(unit))
            do = "Take the unit out, so that %s is left: in a spreadsheet, by giving the column " \
                "the format of plain numbers before saving" % shown(number)
            return self.refuse(row, column, what, do)
        do = "Correct it; if it means that there is no value, add --missing %s" % shown(text)
        return self.refuse(row, column, "%s isn't a number" % shown(text), do)

    def negative(self, row: int, column: int, text: str) -> Refusal:
        """All negative numbers of a column at once: how many there are, and where the first ones
        are.
        """
        known: Dict[str, bool] = {it: False for it in self.missing}
        lines = []
        for k, raw in enumerate(self.records.columns[column]):
            if raw not in known:
                known[raw] = is_negative(self.letters(column, k, raw))
            if known[raw]:
                lines.append(str(self.records.lines[k]))
        what = "%s is negative, and argus takes no negative values" % shown(text)
        if len(lines) > 1:
            more = ", .." if len(lines) > FEW else ""
            what += " (%s in this column, in the lines %s%s)" % (
                "{:,}".format(len(lines)), ", ".join(lines[:FEW]), more
            )
        return self.refuse(
            row, column, what, "Correct mistakes; add a correction to the record that it corrects; "
            "and of a balance, such as a profit, make two columns, one of gains and one of losses, "
            "each with a table of its own"
        )

    def amounts(
        self, column: int, most_decimals: int, limit: int, wanted: Optional[int]
    ) -> Tuple[List[Optional[int]], int]:
        """The numbers of a column in units of its last decimal, none where missing, and how many
        decimals that are; rounded to those that are wanted.
        """
        known: Dict[str, Optional[Number]] = {it: None for it in self.missing}
        found: List[Optional[Number]] = []
        for row, text in enumerate(self.records.columns[column]):
            if text not in known:
                known[text] = self.within(row, column, text, most_decimals, wanted)
            found.append(known[text])
        decimals = max((it.behind for it in known.values() if it), default=0)
        units = [it if it is None else it.digits * 10 ** (decimals - it.behind) for it in found]
        for row, it in enumerate(units):
            if it is not None and it >= limit:
                what = "%s is too large: with %d decimals in this column, values are below %s" % (
                    self.shown_at(row, column), decimals, "{:,}".format(limit // 10**decimals)
                )
                raise self.refuse(
                    row, column, what, "Take a larger unit, or round to fewer decimals"
                )
        return units, decimals

    def shown_at(self, row: int, column: int) -> str:
        """A field, fit for one line of a terminal."""
        return shown(self.letters(column, row, self.records.columns[column][row]))

    def within(
        self, row: int, column: int, text: str, most_decimals: int, wanted: Optional[int]
    ) -> Number:
        """A number with no more decimals than argus takes, rounded where that is wanted; zeros at
        the end that are too many are dropped.
        """
        number = number_of(self.letters(column, row, text), self.marks)
        if number is None:
            raise self.refuse(
                row, column, "%s has more digits than argus takes" % self.shown_at(row, column),
                "Correct or round it"
            )
        digits, behind = number if wanted is None else rounded(number, wanted)
        while behind > most_decimals and digits % 10 == 0:
            digits, behind = digits // 10, behind - 1
        if behind > most_decimals:
            what = "%s has %d decimals, and argus takes %d" % (
                self.shown_at(row, column), behind, most_decimals
            )
            name = shown(self.source.names[column])
            do = "Add --round %s=2, or as many decimals as these numbers need" % name
            raise self.refuse(row, column, what, do)
        return Number(digits, behind)

    def change(self, column: int, wanted: int) -> Tuple[int, Fraction]:
        """How many numbers of a column differ from what they are rounded to, and by how much all of
        these together.
        """
        counts = Counter(self.records.columns[column])
        changed, change = 0, Fraction(0)
        for text, count in counts.items():
            number = None if text in self.missing else number_of(
                self.letters(column, 0, text), self.marks)
            if number and rounded(number, wanted) != number:
                near = rounded(number, wanted)
                more = Fraction(near.digits, 10**near.behind)
                more -= Fraction(number.digits, 10**number.behind)
                changed, change = changed + count * (more != 0), change + count * more
        return changed, change


def exactly(number: Fraction) -> str:
    """A number with a sign, whose denominator is a power of ten or divides one."""
    decimals = 0
    while (number * 10**decimals).denominator > 1:
        decimals += 1
    units = abs(int(number * 10**decimals))
    return ("-" if number < 0 else "+" if number else "") + written(units, decimals)


def written(units: int, decimals: int) -> str:
    """A number of units as a value: digits, and a point where there are decimals."""
    if not decimals:
        return str(units)
    text = str(units).rjust(decimals + 1, "0")
    return text[:-decimals] + "." + text[-decimals:]
