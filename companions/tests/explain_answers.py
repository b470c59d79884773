"""Answers of argus, of every kind, and lines at which a reader could take its time."""

import itertools
from typing import Dict, List, Tuple

# For each file the kinds of its refusals (docs/MANUAL.md, What is refused).
KINDS: Dict[str, Tuple[str, ...]] = {
    "job": (
        "BadLine", "UnknownCommand", "BadValue", "Twice", "TooMany", "OtherResponse", "NoSuchTable",
        "NotInTable", "SameName", "NoSuchVariable", "NotSpanning", "NotNumeric", "NoWeight",
    ),
    "metadata": (
        "UnknownKeyword", "BadName", "BadPlace", "BadValue", "Twice", "TooMany", "Clash"
    ),
    "record": (
        "TooLong", "TooMany", "Short", "Negative", "BadNumber", "LightWeight", "UnknownCode",
        "NotLeaf", "TooManyCodes",
    ),
    "apriori": (
        "BadShape", "UnknownCode", "BadNumber", "EmptyUnsafe", "OutsideTruth", "Twice",
        "ProtectedPrimary",
    ),
    "hierarchy": ("NoCode", "Jump", "TooDeep", "IsTotal", "Twice", "TooMany"),
    "codelist": ("TooMany", ),
    "certificate": ("Version", "Shape", "Number", "Order", "NoEnd"),
}
# How a refusal names the place, by its file.
PLACES = {
    "job": "job line %d", "metadata": "metadata line %d", "record": "record %d",
    "apriori": "apriori table 1 line %d", "hierarchy": "hierarchy 1 line %d",
    "codelist": "codelist 9 line %d", "certificate": "certificate line %d",
}
OTHERS = [
    *("refused: %s: Absent" % it for it in (
        "job", "metadata", "microdata", "codelist 1", "hierarchy 9", "apriori table 1",
        "certificate", "contributors", "table 1",
    )),
    *("not accepted: %s" % it for it in (
        "", "Counts", "Method", "Release", "Release 1 1", "Release 1 99", "Release 9 1",
        "PrimaryShown 1", "FixedHidden 99", "Step 0", "Repair 0 NotBelow", "World 0 Relation 2",
        "Need 0 Wide 1", "NotReached 1 below", "Rounded 1", "Relation 0", "Relation 99",
        "Outside 1",
    )),
    *("not guarded: %s" % it for it in (
        "Open 1 1 below", "Open 9", "Cell 0", "NeedCell 1", "Need 0 NotBelow", "GuardCell 0",
        "Guard 0 Shown 1",
    )),
    *("undecided: %s" % it for it in (
        "work, cell 1 above, 5 steps", "wide, cell 1 below", "size, cell 99 above, 5000 hidden",
        "nodes, 5", "what",
    )),
    "no rounding", "refused: out: OutName", "refused: table 1: TooManyCells",
    "refused: microdata: TooLong", "released: 0 records, 1 skipped",
    "cannot protect cell 0 above\nmultipliers 1 0:1 99:1",
    "cannot protect cell 1 below from row 1\nmultipliers 1", "memory", "read fault: job", "",
]
# Lines of 60,000 bytes.
LONG = [
    b"<DEPTH> (" + b"0" * 60000, b'<DEPTH> (1,"' + b"A" * 60000 + b'",1)',
    b"<DEPTH>" + b" " * 60000 + b"x", b"<SUPPRESS> RND(" + b"0" * 60000,
    b"<SPECIFYTABLE> " + b"| " * 30000 + b"x", b'"' * 60001, b" " * 60000 + b"x",
    b"x" + b" " * 60000 + b"x", b"@" * 60000 + b"x", b"<" * 60000, b"(" * 60000, b"1" * 60000,
    b"<SAFETYRULE> " + b"P(1)|" * 12000, b"North,Total," + b"1" * 60000,
    b"<APRIORI> " + b'","' * 20000, b"<WRITETABLE> (" + b"1" * 60000,
    b"<STEPS> 1" + b" " * 60000 + b"1", b"a," * 30000, b"<" + b"A" * 60000,
    b"A" * 60000 + b" 1 1", b"need 4 4 above 1 " + b"1:1 " * 15000,
]


def all_answers() -> List[str]:
    """Answers of every kind about some lines; a job that has them gives few of these."""
    refusals = [
        "refused: %s: %s" % (PLACES[file] % number, kind)
        for file, kinds in KINDS.items()
        for kind, number in itertools.product(kinds, (0, 1, 3, 4, 9, 99))
    ]
    return refusals + OTHERS
