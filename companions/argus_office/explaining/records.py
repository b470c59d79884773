"""What is wrong with a record that argus refused (docs/MANUAL.md, What is refused in microdata).

A line with at least one byte is a record, numbered from 1. Rows, as `from row R` names them, are
the records that weren't skipped.
"""

import re
from typing import List, Optional, Set

from argus_office.explaining.texts import foreign
from argus_office.reading.files import (BLANKS, MARK, Unread, bytes_range, grouped, listed, shown,
                                        shown_name)
from argus_office.reading.job import Job
from argus_office.reading.metadata import Variable
from argus_office.reading.records import Microdata, Record, is_skipped, units_of
from argus_office.reading.trees import Tree, code_list, from_file, kind_of, prefixes
from argus_office.reading.words import same_but_case

MOST_BYTES, MOST_RECORDS, MOST_CODES = 1000, 1000000, 5000
NO_ANSWER = (b"NA", b"N/A", b"NAN", b"NULL", b"NONE", b".", b"-", b"--", b"*", b"?", b"X", b"#N/A",
             b"<NA>", b"NIL", b"INF")


class Look:
    """One refused record, looked at: the microdata, the record, and the kind of the answer."""
    def __init__(self, data: Microdata, record: Record):
        self.data, self.record = data, record

    def head(self, variable: Variable) -> str:
        """The record, the variable, its bytes, and what stands there."""
        field = variable.field(self.record.raw)
        return "%s: %s, %s, is %s." % (self.data.place(self.record), shown_name(
            variable.name), bytes_range(variable.first or 1, variable.last()), shown(field))

    def neighbours(self) -> List[Record]:
        """Up to ten records around this one."""
        k = self.record.number - 1
        return [
            it for it in self.data.records[max(k - 5, 0):k + 6] if it.number != self.record.number
        ]

    def length(self) -> Optional[int]:
        """The length that most records around have."""
        lengths = [len(it.raw) for it in self.neighbours()]
        return max(set(lengths), key=lambda it: (lengths.count(it), it)) if lengths else None


def explain(job: Job, number: int, kind: str) -> List[str]:
    """What to say of `refused: record N: KIND`."""
    data = Microdata(job)
    record = data.of_number(number)
    if record is None:
        return [
            "%s has only %d records now; has it changed since argus read it?" %
            (shown_name(data.name), len(data.records))
        ]
    look = Look(data, record)
    found = {
        "TooLong": too_long,
        "TooMany": too_many,
        "Short": short,
        "Negative": negative,
        "BadNumber": bad_number,
        "LightWeight": light_weight,
        "UnknownCode": bad_code,
        "NotLeaf": bad_code,
        "TooManyCodes": too_many_codes
    }.get(kind)
    lines = found(look, kind) if found else []
    if not lines:
        lines = [
            "%s: %s" % (data.place(record), shown(record.raw, 80)),
            "Nothing is wrong with it as it stands now; has the file or the metadata changed "
            "since argus read it?"
        ]
    whole_file = foreign(data.data)
    return lines + [whole_file] if whole_file and not any("byte-order mark" in it
                                                          for it in lines) else lines


def too_long(look: Look, kind: str) -> List[str]:
    """A record of too many bytes."""
    raw = look.record.raw
    if len(raw) <= MOST_BYTES:
        return []
    first = "%s has %s bytes; a record has 1,000 at most. It begins %s" % (look.data.place(
        look.record), grouped(len(raw)), shown(raw, 40))
    if raw.count(b"\r") > 1:
        return [
            first, "Lines end with CR alone here, which ends no line for argus. Save the file with "
            "LF, or CR and LF."
        ]
    return [
        first,
        "Is a line end missing, or is the file of another form? Bytes behind the last field "
        "that is needed (byte %d) can be cut off." % look.data.names.needed()
    ]


def too_many(look: Look, kind: str) -> List[str]:
    """More records than a job takes."""
    return [
        "%s: this is record 1,000,001; a job takes 1,000,000." % look.data.place(look.record),
        "Take out the records without a response, which are skipped anyway. Don't cut "
        "the file in two (the manual, Never split tables that share cells)."
    ]


def short(look: Look, kind: str) -> List[str]:
    """A record that ends before a field of the job does."""
    raw, names = look.record.raw, look.data.names
    cut = [it for it in names.used() if it.is_clear() and it.last() > len(raw)]
    if not cut:
        return []
    variable = min(cut, key=lambda it: (it.first or 0))
    first = "%s has %d bytes: %s" % (look.data.place(look.record), len(raw), shown(raw))
    rule = ("%s goes to byte %d (%s), and a record has all bytes of the fields that the job uses."
            ) % (shown_name(variable.name), variable.last(), look.data.metadata.place(
                variable.line))
    return [first, rule, why_short(look, variable)]


def why_short(look: Look, variable: Variable) -> str:
    """The likely cause of a record that is too short."""
    raw, usual, needed = look.record.raw, look.length(), look.data.names.needed()
    if raw.strip(b"\x1a \t") == b"":
        return "The line has no text%s: delete it." % (" (1a is an old mark for the end of a file)"
                                                       if b"\x1a" in raw else "")
    if look.record.number == 1 and is_heading(look):
        return ("It looks like a heading with the names of columns: delete it, argus reads names "
                "from the metadata.")
    if b"\t" in raw or raw.count(b";") + raw.count(b",") > 2:
        return ("It has %s between its fields: argus reads fields of fixed width. ./start makes "
                "such a file from a CSV.") % ("tabs" if b"\t" in raw else "commas or semicolons")
    if look.record.number == len(look.data.records) and usual is not None and usual >= needed:
        said = "It is the last record, and those before have %d bytes: was the file cut off?"
        return said % usual
    if usual is not None and usual >= needed:
        return ("The records around have %d bytes. Blanks at its end may have been taken off, or a "
                "byte is missing: fill the line up with blanks at the right place.") % usual
    if usual is not None:
        return ("The records around have %d bytes too: correct the first byte or the width in the "
                "metadata, or fill the lines up with blanks.") % usual
    return "Fill the line up with blanks, or correct the first byte or the width in the metadata."


def is_heading(look: Look) -> bool:
    """Whether a first record holds names of variables in place of values."""
    text = look.record.raw.lower()
    return sum(1 for it in look.data.names.used() if it.name.lower() in text) >= 2 or not any(
        48 <= it <= 57 for it in text)


def fault_of_number(variable: Variable, text: bytes, most: int) -> Optional[str]:
    """What is wrong with the text of a number (its blanks are off), in a sentence or two; nothing
    where it is good."""
    if units_of(text, variable.decimals()) is not None:
        if (units_of(text, variable.decimals()) or 0) < most:
            return None
        return "It is too large: such a field is below %s in its last decimal." % ten_to(most)
    return quoted_number(text) or marked_number(variable, text) or odd_number(variable, text)


def ten_to(number: int) -> str:
    """A power of ten as a power."""
    return "10^%d" % (len(str(number)) - 1)


def quoted_number(text: bytes) -> Optional[str]:
    """Quotes, signs and words in place of a number."""
    if text[:1] in b"\"'" or text[-1:] in b"\"'":
        return ("Quotes were left in. Write the file without them: in R quote = FALSE, and the "
                "field needs two bytes less.")
    if re.fullmatch(rb"[0-9.,]+[eE][+-]?[0-9]+", text):
        return ("A number has digits and at most one point. R writes large round numbers so: "
                "options(scipen = 100).")
    if text.upper() in NO_ANSWER:
        return ("That seems to mean that there is no answer. Name it as a missing code, as the "
                "last word of the variable's line in the metadata (%s), or leave the field blank.")
    if re.fullmatch(rb"\+[0-9.]+", text):
        return "There is no sign: write it without the plus."
    return None


def marked_number(variable: Variable, text: bytes) -> Optional[str]:
    """Marks for thousands and decimals."""
    if re.fullmatch(rb"[0-9]{1,3}(,[0-9]{3})+(\.[0-9]*)?",
                    text) and (b"." in text or text.count(b",") > 1 or not variable.decimals()):
        return "There are no marks between thousands: write it without commas."
    if re.fullmatch(rb"[0-9]{1,3}(\.[0-9]{3}){2,}(,[0-9]*)?|[0-9]{1,3}(\.[0-9]{3})+,[0-9]*", text):
        return ("There are no marks between thousands, and the decimal mark is a point: write it "
                "without the points%s.") % (", and a point for the comma" if b"," in text else "")
    if re.fullmatch(rb"[0-9]*,[0-9]*", text):
        return "The decimal mark is a point: write %s." % shown(text.replace(b",", b"."))
    if re.fullmatch(rb"[0-9]{1,3}(([ '\xa0_]|\xc2\xa0|\xe2\x80\xaf)[0-9]{3})+([.,][0-9]*)?", text):
        return "There are no blanks or marks inside a number."
    part = text.partition(b".")[2]
    if re.fullmatch(rb"[0-9]*\.[0-9]+", text):
        where = variable.keywords.get("DECIMALS")
        said = "line %d of the metadata: <DECIMALS> %d" % (where[0], variable.decimals(
        )) if where else "the metadata have no <DECIMALS> for it, so it is whole"
        return "It has %d digit%s after the point, and %s may have %s (%s)." % (
            len(part), "" if len(part) == 1 else "s", shown_name(
                variable.name), variable.decimals() or "none", said)
    return None


def odd_number(variable: Variable, text: bytes) -> str:
    """A byte that no number has."""
    if text.count(b".") > 1:
        return "A number has one point at most."
    if not text or text == b".":
        return "It has no digit."
    odd = next(
        (text[k:k + 1] for k in range(len(text)) if not 48 <= text[k] <= 57 and text[k] != 46), b"")
    if odd in BLANKS and odd:
        return "There is a blank inside the number."
    return "A number has digits and at most one point."


def shifted(look: Look, variable: Variable) -> List[str]:
    """Whether the field seems to lie elsewhere in this record: letters of two bytes, a mark in
    front, a byte too many or too few."""
    raw, first = look.record.raw, variable.first or 1
    if raw.startswith(MARK):
        return [
            "The file begins with a byte-order mark (bytes ef bb bf), which shifts this record "
            "by three bytes. Take it out: tail -c +4 OLD > NEW."
        ]
    wide = wide_letters(raw, variable)
    if wide:
        return wide
    usual, here = look.length(), len(raw)
    if b"\t" in raw[:variable.last()]:
        return [
            "There is a tab at byte %d: it counts as one byte. Fill fields up with blanks." %
            (raw.find(b"\t") + 1)
        ]
    if usual is not None and here != usual:
        return [
            "The records around have %d bytes, and this one has %d: %d byte%s too %s somewhere "
            "before or in the field." %
            (usual, here, abs(here - usual), "" if abs(here - usual) == 1 else "s",
             "many" if here > usual else "few")
        ]
    return out_of_place(look, variable, first)


def wide_letters(raw: bytes, variable: Variable) -> List[str]:
    """What to say where letters of several bytes stand before the end of a field."""
    try:
        letters = raw[:variable.last() + 3].decode("utf-8", "ignore") if raw.decode("utf-8") else ""
    except UnicodeDecodeError:
        return []
    before = [it.encode() for it in letters if len(it.encode()) > 1]
    at = raw.find(before[0]) + 1 if before else 0
    if not before or at > variable.last():
        return []
    more = len(letters.encode()) - len(letters)
    return [
        "%s at byte %d takes %d bytes in UTF-8, so what follows is %d byte%s further right: argus "
        "counts bytes, not letters." %
        (shown(before[0]), at, len(before[0]), more, "" if more == 1 else "s"),
        "Turn the file into Latin-1: iconv -f UTF-8 -t ISO-8859-1 OLD > NEW, or fill fields up by "
        "bytes."
    ]


def out_of_place(look: Look, variable: Variable, first: int) -> List[str]:
    """Whether the field of most records around is bad too, and would be good some bytes further on.
    """
    width = variable.width or 1
    around = [it.raw for it in look.neighbours() + [look.record] if len(it.raw) >= variable.last()]
    here = sum(1 for it in around if is_good(variable, it[first - 1:first - 1 + width]))
    if not around or here * 2 >= len(around):
        return []
    for by in (1, -1, 2, -2, 3, -3):
        start = first - 1 + by
        fields = [it[start:start + width] for it in around if start >= 0]
        if fields and all(is_good(variable, it) for it in fields):
            return [
                "The same bytes of records around aren't good either; %s would be. Does the "
                "field begin at byte %d?" % (bytes_range(start + 1, start + width), start + 1)
            ]
    return [
        "The same bytes of records around aren't good either: check the variable's first byte "
        "and width (%s)." % look.data.metadata.place(variable.line)
    ]


def is_good(variable: Variable, field: bytes) -> bool:
    """Whether bytes would do as the field of a number; as a code any would."""
    text = field.strip(BLANKS)
    return not variable.is_number() or not text or text in variable.missing or units_of(
        text, variable.decimals()) is not None


def bad_number(look: Look, kind: str) -> List[str]:
    """The response or the weight, whichever argus finds first: what is wrong with its text."""
    for variable, most in ((look.data.names.response, 10**15), (look.data.names.weight, 10**8)):
        if variable is None:
            continue
        text = variable.field(look.record.raw).strip(BLANKS)
        if variable is look.data.names.weight and not text:
            return [
                look.head(variable),
                "A weight can't be blank: write 1 where the record counts once."
            ]
        why = fault_of_number(variable, text, most)
        if why is None:
            continue
        if "%s" in why:
            why = why % (
                "%s: %s" %
                (look.data.metadata.place(variable.line),
                 shown(look.data.metadata.lines[variable.line - 1].raw + b" " + text)[1:-1]))
        if look.record.number == 1 and is_heading(look):
            return [
                look.head(variable),
                "The line looks like a heading with the names of columns: delete it, argus "
                "reads names from the metadata."
            ]
        sure = not re.match("A number has|It has no digit|There is a blank", why) or "scipen" in why
        return [look.head(variable), why] + ([] if sure else shifted(look, variable))
    return []


def negative(look: Look, kind: str) -> List[str]:
    """A response below 0."""
    variable = look.data.names.response
    if variable is None or not variable.field(look.record.raw).strip(BLANKS).startswith(b"-"):
        return []
    text = variable.field(look.record.raw).strip(BLANKS)
    if text.upper() in NO_ANSWER:
        return [
            look.head(variable),
            "That seems to mean that there is no answer. Leave the field blank, or name it as "
            "a missing code in the metadata (%s)." % look.data.metadata.place(variable.line)
        ]
    return [
        look.head(variable),
        "argus takes no negative values: a firm's loss could be estimated from what protects "
        "the others.",
        "Leave such records out, or name the value as a missing code if it stands for "
        "no answer (%s)." % look.data.metadata.place(variable.line)
    ]


def light_weight(look: Look, kind: str) -> List[str]:
    """A weight below 1."""
    variable = look.data.names.weight
    if variable is None:
        return []
    text = variable.field(look.record.raw).strip(BLANKS)
    value = units_of(text, variable.decimals())
    if value is None or value >= 10**variable.decimals():
        return []
    lines = [look.head(variable), "A weight is at least 1: a record stands for itself at least."]
    return lines + shifted(look, variable)


def bad_code(look: Look, kind: str) -> List[str]:
    """The first spanning variable whose code has a fault; for codes by digits with others below,
    the whole file is looked at."""
    for variable in look.data.names.spanning:
        code, total = variable.field(look.record.raw).strip(BLANKS), variable.total()
        source = kind_of(variable)
        lines: List[str] = []
        if source == "file":
            tree = from_file(variable)
            if code not in tree.at:
                lines = unknown(look, variable, code, tree)
            elif code == total or tree.children()[tree.at[code]]:
                lines = not_leaf(look, variable, code, tree)
        elif source == "levels":
            lines = bad_levels(look, variable, code)
        if not lines and code == total:
            lines = [
                look.head(variable), "That is the code of the total, which no record may have.",
                "Give the record its own code, or the total another one in the metadata, below "
                "line %d: <TOTCODE> All." % variable.line
            ]
        if lines:
            return lines
    return longer_codes(look) if kind == "NotLeaf" else []


def unknown(look: Look, variable: Variable, code: bytes, tree: Tree) -> List[str]:
    """A code that the hierarchy lacks."""
    name = variable.says("HIERCODELIST") or b""
    lines = [look.head(variable)]
    why = like_code(code, tree.codes[1:])
    if why:
        return lines + ["The hierarchy (%s) has no such code, but %s." % (shown_name(name), why)]
    where = shifted(look, variable)
    first = "The hierarchy (%s) has no %s. It has %s." % (
        shown_name(name), "code " + shown(code) if code else "empty code",
        listed([shown(it) for it in tree.codes[1:]], 6))
    return lines + [first] + (where or [
        "Correct the code, add a line to the hierarchy, or name it as a missing code (%s)." %
        look.data.metadata.place(variable.line)
    ])


def like_code(code: bytes, known: List[bytes]) -> Optional[str]:
    """A known code that differs from a code in case, zeros in front, a mark, blanks or the encoding
    alone."""
    like = same_but_case(code, known)
    if like is not None:
        return "it has %s: large and small letters differ" % shown(like)
    if MARK + code in known:
        return "its first code has a byte-order mark in front: take it out (tail -c +4 OLD > NEW)"
    bare = code.lstrip(b"0")
    like = next((it for it in known if it != code and bare and it.lstrip(b"0") == bare), None)
    if like is not None:
        return "it has %s: zeros in front count" % shown(like)
    try:
        other = code.decode("utf-8").encode("latin-1")
    except (UnicodeDecodeError, UnicodeEncodeError):
        other = code.decode("latin-1").encode("utf-8")
    if other != code and other in known:
        return "it has %s in another encoding: bring all files into one (iconv)" % shown(other)
    like = next(
        (it for it in known if it != code and it.strip(b"\"' \t@") == code.strip(b"\"' \t@")), None)
    return "it has %s" % shown(like) if like is not None else None


def not_leaf(look: Look, variable: Variable, code: bytes, tree: Tree) -> List[str]:
    """A code that has others below it, or that of the total."""
    if code == variable.total():
        return [
            look.head(variable),
            "That is the code of the total, which no record may have: its value would be in "
            "none of the codes below.",
            "Give the record a code of the lowest level, or the total another code in "
            "the metadata, below line %d: <TOTCODE> All." % variable.line
        ]
    below = [shown(tree.codes[it]) for it in tree.children()[tree.at[code]]]
    return [
        look.head(variable),
        "It has codes below it (%s): %s, and the record's value would be in none of them." %
        (shown_name(variable.says("HIERCODELIST") or b""), listed(below, 6)),
        "Give the record a code of the lowest level; add one for it to the hierarchy, "
        "as a line below %s, if there is none." % shown(code)
    ]


def bad_levels(look: Look, variable: Variable, code: bytes) -> List[str]:
    """A code by digits that can't be one."""
    widths = variable.levels()
    if any(it in BLANKS for it in code):
        return [
            look.head(variable), "A code by digits has no blank inside.", *shifted(look, variable)
        ]
    if len(code) > sum(widths):
        return [
            look.head(variable),
            "It is longer than the levels together, %d bytes (%s)." %
            (sum(widths), look.data.metadata.place(variable.keywords["HIERLEVELS"][0]))
        ]
    if variable.total() in prefixes(code, widths):
        return [
            look.head(variable),
            "Its front part %s is the code of the total. Give the total another one in the "
            "metadata: <TOTCODE> All." % shown(variable.total())
        ]
    return []


def longer_codes(look: Look) -> List[str]:
    """A code by digits that has others below it: the first record that has one of these."""
    for variable in look.data.names.spanning:
        if kind_of(variable) != "levels":
            continue
        code, widths = variable.field(look.record.raw).strip(BLANKS), variable.levels()
        for record in look.data.rows():
            other = variable.field(record.raw).strip(BLANKS)
            if other != code and code and code in prefixes(other, widths):
                return [
                    look.head(variable),
                    "%s has %s, which is below it: a record has a code of the lowest level, or "
                    "its value would be in none of those below." %
                    (look.data.place(record), shown(other)),
                    "Give the record a longer code, as %s for \"not known in detail\"." % shown(
                        (code + b"0" * 9)[:max(len(other),
                                               len(code) + 1)])
                ]
    return []


def too_many_codes(look: Look, kind: str) -> List[str]:
    """The first variable whose codes pass 5,000 with this record."""
    variables = look.data.names.spanning
    sets: List[Set[bytes]] = [set(code_set(it)) for it in variables]
    response = look.data.names.response
    for record in look.data.records[:look.record.number]:
        if response is not None and is_skipped(record.raw, response):
            continue
        for variable, found in zip(variables, sets):
            code = variable.field(record.raw).strip(BLANKS)
            found.add(code)
            if kind_of(variable) == "levels":
                found.update(prefixes(code, variable.levels()))
            if len(found) > MOST_CODES and kind_of(variable) != "file":
                return [
                    look.head(variable),
                    "With it %s has more than 5,000 codes besides the total. Is it a number, "
                    "or the name of each firm?" % shown_name(variable.name),
                    "Check its first byte and width (%s), or merge codes." %
                    look.data.metadata.place(variable.line)
                ]
    return []


def code_set(variable: Variable) -> List[bytes]:
    """The codes that a flat variable has from its list."""
    name = variable.says("CODELIST")
    if kind_of(variable) != "flat" or name is None:
        return []
    try:
        return [it for it in code_list(name) if it != variable.total()]
    except Unread:
        return []
