"""What is wrong with a line of a hierarchy file or a code list that argus refused."""

from typing import List, Optional

from argus_office.explaining.texts import absent, foreign
from argus_office.reading.files import Unread, shown, shown_name
from argus_office.reading.metadata import Metadata, Variable
from argus_office.reading.trees import Listing, MOST_CODES, MOST_DEPTH


def variable_at(metadata: Metadata, number: int) -> Optional[Variable]:
    """The variable of a number, from 1, where there is one."""
    return metadata.variables[number - 1] if 0 < number <= len(metadata.variables) else None


def absent_file(metadata: Metadata, word: str, number: int, job: bytes) -> List[str]:
    """What to say of a code list or hierarchy file that is absent; NUMBER is that of its variable
    in the metadata."""
    variable = variable_at(metadata, number)
    name = variable.says(word) if variable else None
    if variable is None or name is None:
        return ["Variable %d of %s names no such file now." % (number, shown_name(metadata.name))]
    line = variable.keywords[word][0]
    ends = name[name.rfind(b"."):].decode("latin-1") if b"." in name else ""
    return [
        "%s: %s of %s, variable %d, is in %s." %
        (metadata.place(line), "the hierarchy" if word == "HIERCODELIST" else "the code list",
         shown_name(variable.name), number, shown(name))
    ] + absent(name, ends, job)


def explain(metadata: Metadata, word: str, number: int, line: int, kind: str) -> List[str]:
    """What to say of `refused: hierarchy N line L: KIND` and `refused: codelist N line L: KIND`."""
    variable = variable_at(metadata, number)
    name = variable.says(word) if variable else None
    if variable is None or name is None:
        return ["Variable %d of %s names no such file now." % (number, shown_name(metadata.name))]
    try:
        if word == "CODELIST":
            return listed_codes(variable, name, line)
        listing = Listing(name, variable.lead())
    except Unread as fault:
        return [fault.text()]
    found = {
        "NoCode": no_code,
        "Jump": jump,
        "TooDeep": too_deep,
        "IsTotal": is_total,
        "Twice": twice,
        "TooMany": too_many
    }.get(kind)
    lines = found(variable, listing, line) if found else []
    if not lines:
        lines = missing_code(metadata, variable, line, kind) or [
            "%s, line %d: nothing is wrong there as it stands now; has the file changed "
            "since argus read it?" % (shown_name(name), line)
        ]
    whole_file = foreign(listing.data)
    return lines + [whole_file] if whole_file else lines


def listed_codes(variable: Variable, name: bytes, line: int) -> List[str]:
    """What to say of a code list with too many codes."""
    return [
        "%s, line %d: the code list of %s has more than 5,000 codes up to here." %
        (shown_name(name), line, shown_name(variable.name)),
        "A variable has 5,000 codes at most besides the total, those of the list that "
        "no record has included: shorten the list."
    ]


def head(variable: Variable, listing: Listing, line: int) -> str:
    """The line at fault."""
    raw = listing.raw[line - 1] if 0 < line <= len(listing.raw) else b""
    return "%s, line %d (the hierarchy of %s): %s" % (shown_name(
        listing.name), line, shown_name(variable.name), shown(raw))


def row_at(listing: Listing, line: int) -> Optional[int]:
    """Which row of the file a line is."""
    return next((k for k, it in enumerate(listing.rows) if it[0] == line), None)


def no_code(variable: Variable, listing: Listing, line: int) -> List[str]:
    """A lead without a code."""
    k = row_at(listing, line)
    if k is None or listing.rows[k][2]:
        return []
    return [
        head(variable, listing, line),
        "The line has the lead %s and no code behind it: write the code, or delete the line." %
        shown(variable.lead())
    ]


def jump(variable: Variable, listing: Listing, line: int) -> List[str]:
    """A line that is more than one level deeper than the line above."""
    k = row_at(listing, line)
    if k is None:
        return []
    depth, lead = listing.rows[k][1], shown(variable.lead())
    if k == 0:
        return [
            head(variable, listing, line),
            "The first line has the lead %s, and there is no code above it to be below." %
            lead, "The total has no line: codes right below it have no lead."
        ] if depth else []
    before = listing.rows[k - 1]
    if depth <= before[1] + 1:
        return []
    return [
        head(variable, listing, line),
        "It has the lead %s %d times, and the line above (%d, %s) %s: a line is one level "
        "deeper than that at most." % (lead, depth, before[0], shown(
            before[2]), "%d times" % before[1] if before[1] else "not at all"),
        "Write the line of the level between, or take leads away."
    ]


def too_deep(variable: Variable, listing: Listing, line: int) -> List[str]:
    """A line deeper than nine levels."""
    k = row_at(listing, line)
    if k is None or listing.rows[k][1] < MOST_DEPTH:
        return []
    return [
        head(variable, listing, line),
        "It has the lead %s %d times: level %d below the total, and nine are the most. Merge "
        "levels." % (shown(variable.lead()), listing.rows[k][1], listing.rows[k][1] + 1)
    ]


def is_total(variable: Variable, listing: Listing, line: int) -> List[str]:
    """A line with the code of the total."""
    k = row_at(listing, line)
    if k is None or listing.rows[k][2] != variable.total():
        return []
    return [
        head(variable, listing, line),
        "%s is the code of the total, which has no line: the codes right below it have no lead." %
        shown(variable.total()),
        "Delete the line; or give the total another code in the metadata, below line "
        "%d: <TOTCODE> All." % variable.line
    ]


def twice(variable: Variable, listing: Listing, line: int) -> List[str]:
    """A code that a line above has."""
    k = row_at(listing, line)
    if k is None:
        return []
    code = listing.rows[k][2]
    same = next((it for it in listing.rows[:k] if it[2] == code), None)
    return [
        head(variable, listing, line),
        "Line %d has the code %s already. A code has one place in the tree: give one of them "
        "another code." % (same[0], shown(code))
    ] if same else []


def too_many(variable: Variable, listing: Listing, line: int) -> List[str]:
    """The line with which the codes become too many."""
    k = row_at(listing, line)
    if k is None or len({it[2] for it in listing.rows[:k + 1]}) <= MOST_CODES:
        return []
    return [
        head(variable, listing, line),
        "With it there are more than 5,000 codes besides the total: merge codes."
    ]


def missing_code(metadata: Metadata, variable: Variable, number: int, kind: str) -> List[str]:
    """A missing code of the metadata can be refused too; the number is then that of the missing
    code."""
    if not 1 <= number <= len(variable.missing) or kind not in ("IsTotal", "TooMany"):
        return []
    code = variable.missing[number - 1]
    where = "%s: missing code %d of %s is %s." % (metadata.place(
        variable.line), number, shown_name(variable.name), shown(code))
    if kind == "TooMany":
        return [
            where, "With it there are more than 5,000 codes besides the total: merge codes of the "
            "hierarchy file."
        ]
    if code != variable.total():
        return []
    return [
        where, "That is the code of the total. Give the total another code there: <TOTCODE> All."
    ]
