"""What is wrong with a line of metadata that argus refused (docs/MANUAL.md, What is refused in
metadata)."""

from typing import List

from argus_office.explaining.texts import foreign
from argus_office.reading.files import BLANKS, Word, bare, is_number, listed, shown, shown_name
from argus_office.reading.metadata import Line, Metadata, whole
from argus_office.reading.words import curled_in, nearest

KEYWORDS = ("RECODEABLE", "RECODABLE", "NUMERIC", "DECIMALS", "WEIGHT", "CODELIST", "HIERARCHICAL",
            "HIERLEVELS", "HIERCODELIST", "HIERLEADSTRING", "TOTCODE", "REQUEST", "HOLDING",
            "DISTANCE")
PASSED_OVER = ("REQUEST", "HOLDING", "DISTANCE")
NO_ARGUMENT = ("RECODEABLE", "RECODABLE", "NUMERIC", "WEIGHT", "HIERARCHICAL")
ARGUMENTS = {
    "DECIMALS":
    "a whole number from 0 to 9",
    "CODELIST":
    "the name of a file",
    "HIERLEVELS":
    "the bytes of each level, from the front: 1 to 9 whole numbers from 1 on that add up "
    "to the field's width",
    "HIERCODELIST":
    "the name of a file",
    "HIERLEADSTRING":
    "a word of 1 to 8 bytes without blanks",
    "TOTCODE":
    "one word, the code of the total",
}
LAST_PLACE, MOST_WIDTH, MOST_VARIABLES, MOST_NAME = 1000, 255, 64, 64


def explain(metadata: Metadata, number: int, kind: str) -> List[str]:
    """What to say of `refused: metadata line N: KIND`."""
    line = metadata.line(number)
    if line is None:
        return [
            "%s has only %d lines now; has it changed since argus read it?" %
            (shown_name(metadata.name), len(metadata.lines))
        ]
    said = {
        "UnknownKeyword": unknown_keyword,
        "BadName": bad_name,
        "BadPlace": bad_place,
        "BadValue": bad_value,
        "Twice": twice,
        "TooMany": too_many,
        "Clash": clash
    }.get(kind)
    lines = said(metadata, line) if said else []
    if not lines:
        lines = [
            head(metadata, line),
            "Nothing is wrong with this line as it stands now; has the file changed since "
            "argus read it?"
        ]
    whole_file = foreign(metadata.data)
    return lines + [whole_file] if whole_file else lines


def head(metadata: Metadata, line: Line, at: int = -1, end: int = -1) -> str:
    """File, line, and the bytes at fault with the text there, or the whole line."""
    if at < 0:
        return "%s: %s" % (metadata.place(line.number), bare(line.raw))
    if at >= end:
        return "%s, at byte %d: %s" % (metadata.place(line.number), at + 1, bare(line.raw))
    return "%s, %s: %s" % (metadata.place(line.number), "byte %d" %
                           (at + 1) if end == at + 1 else "bytes %d to %d" %
                           (at + 1, end), bare(line.raw[at:end]))


def at_word(metadata: Metadata, line: Line, word: Word) -> str:
    """The line at fault, with one of its words."""
    return head(metadata, line, word.at, word.at + max(word.size, 1))


def unknown_keyword(metadata: Metadata, line: Line) -> List[str]:
    """A keyword that argus lacks, and one that is like it."""
    keyword = line.keyword
    if keyword is None or keyword in KEYWORDS:
        return []
    start = len(line.raw) - len(line.raw.lstrip(BLANKS))
    end = line.raw.find(b">", start) + 1 or len(line.raw.rstrip(BLANKS))
    first = head(metadata, line, start, end)
    if keyword == "" and b">" not in line.raw:
        return [
            first,
            "The > behind the keyword is missing. A line that begins with < is a keyword line."
        ]
    if keyword.strip() in KEYWORDS:
        return [first, "There may be no blanks between < and >: <%s>." % keyword.strip()]
    if keyword == "SEPARATOR":
        return [
            first,
            "argus reads fields of fixed width alone. ./start makes such a file from a CSV; or "
            "one line of awk does (the manual, Records and fields)."
        ]
    like = nearest(keyword, KEYWORDS)
    return [
        first,
        "argus has no such keyword%s" % (": is <%s> meant?" % like if like else "."),
        "" if like else "The keywords are %s." % ", ".join("<%s>" % it for it in KEYWORDS)
    ]


def bad_name(metadata: Metadata, line: Line) -> List[str]:
    """A name that can't be one, or a keyword without a variable."""
    if line.keyword is not None:
        return [
            head(metadata,
                 line), "A keyword belongs to the variable line above it, and there is none yet.",
            "Put it below the line of its variable: name, first byte, width."
        ]
    name = line.words[0] if line.words else None
    if name is None or 1 <= len(name.text) <= MOST_NAME:
        return []
    why = "The name is empty."
    if name.text:
        why = "The name has %d bytes; a name of a variable has 64 at most." % len(name.text)
    return [at_word(metadata, line, name), why]


def bad_place(metadata: Metadata, line: Line) -> List[str]:
    """The first byte or the width of a variable line."""
    if line.keyword is not None or not line.words:
        return []
    words, form = line.words, (
        "A variable line has the name, the first byte and the width, as `Turnover 13 4`, with "
        "blanks between them.")
    for k, what in ((1, "position of the first byte"), (2, "width")):
        if len(words) <= k:
            return [head(metadata, line), "The %s is missing." % what, comma_in(line) or form]
        value = whole(words[k].text)
        if not is_number(words[k].text):
            return [
                at_word(metadata, line, words[k]),
                "Here the %s is wanted, a whole number from 1." % what,
                blank_in_name(line, k) or form
            ]
        if value == 0:
            return [
                at_word(metadata, line, words[k]),
                "The %s can't be 0: bytes count from 1." % what
            ]
        if k == 2 and (value is None or value > MOST_WIDTH):
            return [at_word(metadata, line, words[k]), "The width of a field is 1 to 255 bytes."]
    first, width = whole(words[1].text), whole(words[2].text)
    if first is None or width is None or first + width - 1 > LAST_PLACE:
        return [
            head(metadata, line, words[1].at, words[2].at + words[2].size),
            "The field ends after byte 1,000, the last that argus reads of a record."
        ]
    return []


def comma_in(line: Line) -> str:
    """A hint where words are separated by commas."""
    found = next((it for it in (b",", b";") if it in line.raw), None)
    return "Words are separated by blanks here, not by %s." % shown(found) if found else ""


def blank_in_name(line: Line, k: int) -> str:
    """Where a name with a blank stands without quotes, its later words are where the numbers are
    wanted."""
    numbers = [
        j for j in range(1,
                         len(line.words) - 1)
        if is_number(line.words[j].text) and is_number(line.words[j + 1].text)
    ]
    if k == 1 and numbers and numbers[0] > 1:
        name = line.raw[line.words[0].at:line.words[numbers[0] - 1].at +
                        line.words[numbers[0] - 1].size]
        return 'A name with a blank in it needs double quotes: "%s".' % shown(name)[1:-1]
    if line.words[k].text.startswith(b"<"):
        return "A keyword has a line of its own, below that of its variable."
    return comma_in(line)


def bad_value(metadata: Metadata, line: Line) -> List[str]:
    """The argument of a keyword, or a third missing code."""
    if line.keyword is None:
        if len(line.words) < 6:
            return []
        return [
            at_word(metadata, line, line.words[5]),
            "A variable has two missing codes at most; this is the third word after the width.",
            "A code with a blank in it needs double quotes; a keyword has a line of "
            "its own."
        ]
    keyword, words = line.keyword, line.words
    if keyword in NO_ARGUMENT:
        return [at_word(metadata, line, words[0]),
                "<%s> has no argument." % keyword] if words else []
    if keyword not in ARGUMENTS:
        return []
    wanted = "<%s> takes %s." % (keyword, ARGUMENTS[keyword])
    if not words:
        return [head(metadata, line), "Its argument is missing. %s" % wanted]
    if keyword == "HIERLEVELS":
        return levels(metadata, line, wanted)
    if len(words) > 1:
        curled = curled_in(line.raw) is not None
        return [
            at_word(metadata, line, words[1]),
            "This is one word too many. %s" % wanted,
            "These are curled quotes; straight ones are wanted."
            if curled else "A %s with a blank in it needs double quotes." %
            ("file name" if "LIST" in keyword else "word")
        ]
    return value_of(metadata, line, keyword, words[0], wanted)


def value_of(metadata: Metadata, line: Line, keyword: str, word: Word, wanted: str) -> List[str]:
    """What is wrong with the one argument of a keyword."""
    text, first = word.text, at_word(metadata, line, word)
    if keyword == "DECIMALS" and (whole(text) is None or (whole(text) or 0) > 9):
        return [first, wanted]
    if keyword == "HIERLEADSTRING" and (not 1 <= len(text) <= 8 or b" " in text or b"\t" in text):
        return [first, wanted]
    if keyword in ("CODELIST", "HIERCODELIST"):
        odd = next((k for k, it in enumerate(text) if not 32 <= it < 127 or it == 34), None)
        if odd is not None:
            return [
                first,
                "A name of a file has printable ASCII letters alone, and no double quote; byte "
                "%d of the line is %02x." % (word.at + odd + 1 +
                                             (1 if word.is_quoted else 0), text[odd])
            ]
        if not 1 <= len(text) <= 255:
            return [first, "A name of a file has 1 to 255 bytes."]
    return []


def levels(metadata: Metadata, line: Line, wanted: str) -> List[str]:
    """What is wrong with the numbers of HIERLEVELS."""
    numbers = []
    for word in line.words:
        value = whole(word.text)
        if value is None:
            return [at_word(metadata, line, word), "Here a whole number is wanted. %s" % wanted]
        numbers.append(value)
    while numbers and not numbers[-1]:
        numbers.pop()
    of = next((it for it in reversed(metadata.before(line.number))), None)
    if not numbers:
        return [head(metadata, line), "No level is left: zeros at the end add none. %s" % wanted]
    if 0 in numbers:
        return [
            at_word(metadata, line, line.words[numbers.index(0)]),
            "A 0 may stand at the end alone, where it adds no level. %s" % wanted
        ]
    if len(numbers) > 9:
        return [head(metadata, line), "These are %d levels; nine are the most." % len(numbers)]
    if of is None or of.width is None or sum(numbers) == of.width:
        return []
    return [
        head(metadata, line),
        "The levels have %d bytes together, and the field of %s has %d (line %d)." %
        (sum(numbers), shown_name(of.name), of.width, of.line), "Bring both to the same number."
    ]


def twice(metadata: Metadata, line: Line) -> List[str]:
    """The earlier line with the same name or keyword."""
    before = metadata.before(line.number)
    if line.keyword is None:
        same = next((it for it in before if line.words and it.name == line.words[0].text), None)
        return [
            at_word(metadata, line, line.words[0]),
            "Line %d has a variable of this name already. Give one of them another name, or "
            "delete it." % same.line
        ] if same else []
    if not before:
        return []
    mine = before[-1].keywords.get(line.keyword)
    if mine and mine[0] < line.number and line.keyword not in PASSED_OVER:
        return [
            head(metadata, line),
            "%s has <%s> in line %d already: delete one of the two." %
            (shown_name(before[-1].name), line.keyword, mine[0])
        ]
    weight = next((it for it in before if it is not before[-1] and "WEIGHT" in it.keywords), None)
    if line.keyword == "WEIGHT" and weight:
        return [
            head(metadata, line),
            "%s is the weight already (line %d), and there is one at most." %
            (shown_name(weight.name), weight.keywords["WEIGHT"][0])
        ]
    return []


def too_many(metadata: Metadata, line: Line) -> List[str]:
    """More variables than metadata may have."""
    return [
        head(metadata, line),
        "This is variable %d; metadata have 64 at most." % (len(metadata.before(line.number)) + 1),
        "Delete variables that no table needs: bytes of a record may belong to no "
        "field."
    ]


def clash(metadata: Metadata, line: Line) -> List[str]:
    """Keywords of a variable that can't go together."""
    of = next((it for it in metadata.variables if it.line == line.number), None)
    if of is None:
        return []

    has = of.keywords

    def at(*words: str) -> str:
        return listed(["<%s> (line %d)" % (it, has[it][0]) for it in words if it in has])

    first = "%s: %s has %s." % (metadata.place(line.number), shown_name(of.name), "%s")
    if "HIERLEVELS" in has and "HIERCODELIST" in has:
        return [
            first % at("HIERLEVELS", "HIERCODELIST"),
            "Its levels come from the digits of its codes or from a file, not from both: "
            "delete one of the two."
        ]
    if "HIERARCHICAL" in has and not ("HIERLEVELS" in has or "HIERCODELIST" in has):
        return [
            first % at("HIERARCHICAL"),
            "What its levels are is missing: add <HIERLEVELS> or <HIERCODELIST>, or delete "
            "<HIERARCHICAL> where it has none."
        ]
    if of.is_number() and ("HIERLEVELS" in has or "HIERCODELIST" in has):
        return [
            first % at("NUMERIC", "WEIGHT", "HIERLEVELS", "HIERCODELIST"),
            "A number has no levels: delete what doesn't belong to it."
        ]
    if "WEIGHT" in has and of.decimals() > 4:
        return [
            first % at("WEIGHT", "DECIMALS"),
            "A weight has at most 4 decimals; these are %d." % of.decimals()
        ]
    return []
