"""Mistakes made by hand on one small job, each with what argus answers and words that the
explanation must have, worked out by reading the mistake.

BASE has the files. A mistake is: its name, the files that differ (a file of None is absent),
argus's words, its answer, and the words looked for.
"""

from typing import Dict, List, NamedTuple, Optional

JOB = b"""// turnover by region and size
<OPENMICRODATA> "firms.asc"
<OPENMETADATA> "firms.rda"
<SPECIFYTABLE> "Region""Size"|"Turnover"
<SAFETYRULE> FREQ(3,30)
<SUPPRESS> MOD()
<WRITETABLE> (1,"table.csv")
<CERTIFICATE> "table.cert"
"""
METADATA = b"""Region 1 4
<HIERARCHICAL>
<HIERCODELIST> "region.hrc"
Size 5 1 9
Turnover 6 8
<NUMERIC>
<DECIMALS> 1
Weight 14 4
<NUMERIC>
<WEIGHT>
<DECIMALS> 1
"""
HIERARCHY = b"North\n@N1\n@N2\nS\xc3\xbcd\n@S1\n@S2\n"
ROWS = [("N1", "a", "12.5", "1.0"), ("N1", "b", "100", "1.0"), ("N2", "a", "31", "2.0"),
        ("N2", "b", "7.5", "1.0"), ("S1", "a", "50", "1.5"), ("S1", "b", "41", "1.0"),
        ("S2", "a", "77", "1.0"), ("S2", "b", "8.5", "1.0")]


def row(region: str, size: str, turnover: str, weight: str = "1.0") -> bytes:
    return ("%-4s%s%8s%4s\n" % (region, size, turnover, weight)).encode()


RECORDS = [row(*it) for it in ROWS]
BASE: Dict[str, bytes] = {
    "it.job": JOB,
    "firms.rda": METADATA,
    "region.hrc": HIERARCHY,
    "firms.asc": b"".join(RECORDS)
}


class Mistake(NamedTuple):
    """A mistake: files in place of those of BASE, argus's words and answer, words of the
    explanation, and whether argus is asked (it may take long)."""

    name: str
    files: Dict[str, Optional[bytes]]
    answer: str
    words: List[str]
    asked: str = "run it.job"
    is_tried: bool = True


def record(number: int, text: bytes) -> Dict[str, Optional[bytes]]:
    """The microdata with another text as record N."""
    return {"firms.asc": b"".join(RECORDS[:number - 1] + [text] + RECORDS[number:])}


def job(old: bytes, new: bytes) -> Dict[str, Optional[bytes]]:
    assert JOB.count(old) == 1, old
    return {"it.job": JOB.replace(old, new)}


def metadata(old: bytes, new: bytes) -> Dict[str, Optional[bytes]]:
    assert METADATA.count(old) == 1, old
    return {"firms.rda": METADATA.replace(old, new)}


def hierarchy(text: bytes) -> Dict[str, Optional[bytes]]:
    return {"region.hrc": text}


WEIGHTED = JOB.replace(b"FREQ(3,30)", b"FREQ(3,30)|WGT(1)")
HEADING = b"RegiSTurnoverWght\n"
SHIFTED = b"".join(b"\n".join([it[:5] + it[6:13] + b" " + it[13:-1]]) + b"\n" for it in RECORDS)

MISTAKES = [
    Mistake("an exponent", record(5, row("S1", "a", "1e+05")), "refused: record 5: BadNumber",
            ['firms.asc, line 5: Turnover, bytes 6 to 13, is "   1e+05".', "scipen"]),
    Mistake("no answer", record(2, row("N1", "b", "NA")), "refused: record 2: BadNumber",
            ["line 2: Turnover", "missing code", "Turnover 6 8 NA"]),
    Mistake("a point for no answer", record(2, row("N1", "b", ".")), "refused: record 2: BadNumber",
            ["line 2: Turnover", "missing code"]),
    Mistake("a comma", record(3, row("N2", "a", "31,5")), "refused: record 3: BadNumber",
            ["line 3: Turnover", 'write "31.5"']),
    Mistake("thousands", record(3, row("N2", "a", "1,234.5")), "refused: record 3: BadNumber",
            ["line 3: Turnover", "thousands"]),
    Mistake("thousands by points", record(3, row("N2", "a",
                                                 "1.234,5")), "refused: record 3: BadNumber",
            ["line 3: Turnover", "thousands", "point for the comma"]),
    Mistake("quotes", record(4, row("N2", "b", '"7.5"')), "refused: record 4: BadNumber",
            ["line 4: Turnover", "Quotes were left in"]),
    Mistake("too many decimals", record(4, row("N2", "b", "7.55")), "refused: record 4: BadNumber",
            ["line 4: Turnover", "2 digits after the point", "<DECIMALS> 1"]),
    Mistake("a blank inside", record(4, row("N2", "b", "1 200")), "refused: record 4: BadNumber",
            ["line 4: Turnover", "blanks or marks inside"]),
    Mistake("an empty line before",
            {"firms.asc": b"\n" + b"".join(RECORDS[:3]) + row("N2", "b", "x7")},
            "refused: record 4: BadNumber", ["firms.asc, line 5 (record 4", "Turnover"]),
    Mistake("a letter of two bytes", {
        **record(5, "S\u00fcd a      50 1.0\n".encode()),
        **hierarchy(b"S\xc3\xbcd\nN1\nN2\nS1\nS2\n")
    }, "refused: record 5: BadNumber", ["line 5: Turnover", "UTF-8", "Latin-1"]),
    Mistake("a field a byte off", metadata(b"Turnover 6 8",
                                           b"Turnover 5 8"), "refused: record 1: BadNumber",
            ["line 1: Turnover, bytes 5 to 12", "bytes 6 to 13 would be"]),
    Mistake("a heading", {"firms.asc": HEADING + b"".join(RECORDS)}, "refused: record 1: BadNumber",
            ["line 1: Turnover", "heading"]),
    Mistake("a line too short", record(6, b"S1  b   41\n"), "refused: record 6: Short",
            ["firms.asc, line 6 has 10 bytes", "Turnover goes to byte 13", "have 17 bytes"]),
    Mistake("an old end of file", {"firms.asc": b"".join(RECORDS) + b"\x1a"},
            "refused: record 9: Short", ["line 9", "end of a file"]),
    Mistake("a negative value", record(1, row("N1", "a", "-3")), "refused: record 1: Negative",
            ["line 1: Turnover", "no negative values"]),
    Mistake("a dash for no answer", record(1, row("N1", "a", "-")), "refused: record 1: Negative",
            ["line 1: Turnover", "no answer"]),
    Mistake("a weight below 1", {
        "it.job": WEIGHTED,
        **record(2, row("N1", "b", "100", "0.5"))
    }, "refused: record 2: LightWeight", ["line 2: Weight, bytes 14 to 17", "at least 1"]),
    Mistake("a blank weight", {
        "it.job": WEIGHTED,
        **record(2, row("N1", "b", "100", ""))
    }, "refused: record 2: BadNumber", ["line 2: Weight, bytes 14 to 17", "can't be blank"]),
    Mistake("a code of small letters", record(3, row("n2", "a",
                                                     "31")), "refused: record 3: UnknownCode",
            ["line 3: Region, bytes 1 to 4", '"N2"', "large and small"]),
    Mistake("an unknown code", record(3, row("X9", "a", "31")), "refused: record 3: UnknownCode",
            ["line 3: Region", "region.hrc", "X9"]),
    Mistake("a code in another encoding", record(3, b"S\xfcd a      31 1.0\n"),
            "refused: record 3: UnknownCode", ["line 3: Region", "encoding"]),
    Mistake("a code with others below", record(3, row("North", "", "31")),
            "refused: record 3: UnknownCode", ["line 3: Region", '"Nort"']),
    Mistake("a code of an upper level", record(3, b"S\xc3\xbcda      31 1.0\n"),
            "refused: record 3: NotLeaf", ["line 3: Region", '"S1" and "S2"']),
    Mistake("the total's code", {
        **record(3, b"N2  T      31 1.0\n"),
        **metadata(b"Size 5 1 9\n", b"Size 5 1 9\n<TOTCODE> T\n")
    }, "refused: record 3: NotLeaf", ["line 3: Size, byte 5", "total"]),
    Mistake("a mark before the hierarchy", hierarchy(b"\xef\xbb\xbf" + b"N1\nN2\nS1\nS2\n"),
            "refused: record 1: UnknownCode", ["line 1: Region", "byte-order mark"]),
    Mistake("a mark before the job", {"it.job": b"\xef\xbb\xbf" + JOB},
            "refused: job line 1: BadLine", ["it.job, line 1", "byte-order mark"]),
    Mistake(
        "a mark before the metadata", {"firms.rda": b"\xef\xbb\xbf" + METADATA},
        "refused: job line 4: NoSuchVariable",
        ["line 4, bytes 16 to 23: \"Region\"", "firms.rda: The file begins with a byte-order mark"
         ]),
    Mistake("UTF-16", {"it.job": JOB.decode().encode("utf-16")}, "refused: job line 1: BadLine",
            ["UTF-16"]),
    Mistake("lines that end with CR alone", {"firms.asc": b"".join(RECORDS).replace(b"\n", b"\r")},
            "released: 1 records, 0 skipped, 0 passed over, 14 cells, 6 primary, 6 hidden",
            ["CR alone"]),
    Mistake("curled quotes", job(b'"table.cert"', "\u201ctable.cert\u201d".encode()),
            "refused: job line 8: BadValue", ["it.job, line 8, bytes 15 to", "curled quotes"]),
    Mistake("a comma between variables", job(b'"Region""Size"', b'"Region","Size"'),
            "refused: job line 4: BadValue", ["line 4, byte 24", "without commas"]),
    Mistake("no response", job(b'|"Turnover"', b""), "refused: job line 4: BadValue",
            ["line 4", "response"]),
    Mistake("a variable twice", job(b'"Region""Size"', b'"Region""Region"'),
            "refused: job line 4: BadValue", ["line 4, bytes 24 to 31", "twice"]),
    Mistake("a range", job(b"FREQ(3,30)", b"NK(1,175)"), "refused: job line 5: BadValue",
            ["line 5, bytes 19 to 21: 175", "k goes from 1 to 100"]),
    Mistake("intruders who work together", job(b"FREQ(3,30)", b"P(10,2)"),
            "refused: job line 5: BadValue", ["line 5, byte 19: 2", "n = 1"]),
    Mistake("an unknown rule", job(b"FREQ(3,30)", b"FREK(3,30)"), "refused: job line 5: BadValue",
            ["FREK", "FREQ"]),
    Mistake("rules joined by a comma", job(b"FREQ(3,30)", b"FREQ(3,30),P(10)"),
            "refused: job line 5: BadValue", ["byte 24", "joined by |"]),
    Mistake("no rule", job(b"FREQ(3,30)", b"MAN(20)"), "refused: job line 5: BadValue",
            ["line 5", "at least one of FREQ"]),
    Mistake("a method of elsewhere", job(b"MOD()", b"OPT(1)"), "refused: job line 6: BadValue",
            ["line 6", "GH(n), MOD() or RND(b)"]),
    Mistake("options of an output", job(b'(1,"table.csv")', b'(1,1,AS+,"table.csv")'),
            "refused: job line 7: BadValue", ["line 7", "one form of output"]),
    Mistake("blanks in a command", job(b"<SUPPRESS>", b"< SUPPRESS>"),
            "refused: job line 6: UnknownCommand", ["line 6, bytes 1 to 11", "no blanks"]),
    Mistake("a command of elsewhere", job(b"<SUPPRESS> MOD()", b"<RECODE> 1\n<SUPPRESS> MOD()"),
            "refused: job line 6: UnknownCommand", ["line 6", "tau-ARGUS"]),
    Mistake("a comment by #", job(b"// turnover", b"# turnover"), "refused: job line 1: BadLine",
            ["line 1", "//"]),
    Mistake("a number spans", job(b'"Region""Size"',
                                  b'"Region""Weight"'), "refused: job line 4: NotSpanning",
            ["bytes 24 to 31", "firms.rda, line 9", "<NUMERIC>"]),
    Mistake("a response of codes", job(b'|"Turnover"', b'|"Size"'),
            "refused: job line 4: NotSpanning", [], "skip"),
    Mistake("no number below the response", metadata(b"Turnover 6 8\n<NUMERIC>\n",
                                                     b"Turnover 6 8\n"),
            "refused: job line 4: NotNumeric", ["line 4", "firms.rda, line 5", "<NUMERIC>"]),
    Mistake("no weight", {
        "it.job": WEIGHTED,
        **metadata(b"<WEIGHT>\n", b"")
    }, "refused: job line 5: NoWeight", ["line 5, bytes 25 to 30: WGT(1)", "<WEIGHT>"]),
    Mistake("a name with a blank", metadata(b"Turnover 6 8", b"Net turnover 6 8"),
            "refused: metadata line 5: BadPlace",
            ["firms.rda, line 5, bytes 5 to 12: turnover", '"Net turnover"']),
    Mistake("levels that don't add up", metadata(b'<HIERCODELIST> "region.hrc"',
                                                 b"<HIERLEVELS> 1 2"),
            "refused: metadata line 3: BadValue", ["line 3", "3 bytes together", "has 4 (line 1)"]),
    Mistake("a separator", metadata(b"Region 1 4\n", b"Region 1 4\n<SEPARATOR> ,\n"),
            "refused: metadata line 2: UnknownKeyword", ["line 2", "fixed width"]),
    Mistake("levels of nothing", metadata(b'<HIERCODELIST> "region.hrc"\n', b""),
            "refused: metadata line 1: Clash", ["line 1: Region", "<HIERARCHICAL> (line 2)"]),
    Mistake("a jump", hierarchy(b"North\n@@N1\n"), "refused: hierarchy 1 line 2: Jump",
            ["region.hrc, line 2", "one level deeper"]),
    Mistake("the total in the hierarchy", hierarchy(b"Total\n@N1\n"),
            "refused: hierarchy 1 line 1: IsTotal", ["region.hrc, line 1", "no line"]),
    Mistake("a code twice", hierarchy(b"North\n@N1\nS\n@N1\n"),
            "refused: hierarchy 1 line 4: Twice", ["region.hrc, line 4", "Line 2"]),
    Mistake("a file of other case", {
        "region.hrc": None,
        "Region.hrc": HIERARCHY
    }, "refused: hierarchy 1: Absent", ["firms.rda, line 3", "Region.hrc", "large and small"]),
    Mistake("no microdata", {"firms.asc": None}, "refused: microdata: Absent",
            ["it.job, line 2", "no such file"]),
    Mistake("files beside the job", {
        "firms.rda": None,
        "sub/it.job": JOB,
        "sub/firms.rda": METADATA
    }, "refused: metadata: Absent", ["sub/it.job, line 3", "beside the job"], "run sub/it.job"),
    Mistake("no job", {}, "refused: job: Absent", ["other.job"], "run other.job"),
    Mistake("intervals of a rounding", job(b"MOD()", b"RND(5)"), "refused: job line 0: BadValue",
            ["line 6", "audit"], "intervals it.job out.csv"),
    Mistake("an audit of suppression", {}, "refused: job line 0: BadValue", ["line 6", "intervals"],
            "audit it.job out.csv"),
    Mistake("the job as an output", job(b'"table.cert"', b'"it.job"'), "refused: out: OutName",
            ["it.job, line 8", "another name"]),
]
MISTAKES = [it for it in MISTAKES if it.asked != "skip"]

# The two-way table of the manual with a second one beside it; a cube that can't be rounded; and a
# variable of as many codes as may be.
TWO = b"A 1 2\nB 3 2\nC 5 2\nV 7 3\n<NUMERIC>\n"
TWO_ROWS = b"".join(it + b"\n"
                    for it in (b"a1b1c1 10", b"a1b1c2 10", b"a1b2c1 10", b"a1b2c1 10", b"a1b2c2 10",
                               b"a1b2c2 20", b"a2b1c1  5", b"a2b1c1  5", b"a2b1c2 10", b"a2b1c2 10",
                               b"a2b2c1 15", b"a2b2c2 10", b"a2b2c2 15"))


def other(tables: str,
          rules: str,
          method: str,
          rows: bytes,
          more: str = "") -> Dict[str, Optional[bytes]]:
    """A job over the variables of TWO, with its tables, rules and method."""
    lines = ['<OPENMICRODATA> "firms.asc"', '<OPENMETADATA> "firms.rda"'
             ] + ['<SPECIFYTABLE> %s|"V"' % it for it in tables.split(" ")]
    lines += ["<SAFETYRULE> " + rules, "<SUPPRESS> " + method] + [
        '<WRITETABLE> (%d,"%d.csv")' % (k + 1, k) for k in range(len(tables.split(" ")))
    ] + ['<CERTIFICATE> "it.cert"']
    return {
        "it.job": "".join(it + "\n" for it in lines + ([more] if more else [])).encode(),
        "firms.rda": TWO,
        "firms.asc": rows
    }


CUBE = b"".join(b"a%db%dc%d  1\n" % it for it in ((1, 1, 1), (2, 1, 1), (2, 1, 2), (2, 2, 2),
                                                  (1, 2, 2), (1, 2, 3), (1, 1, 3)))
MANY = other('"A"', "FREQ(3,30)", "MOD()", b"".join(b"%04d   1\n" % k for k in range(1, 4501)))
MANY["firms.rda"] = b"A 1 4\nV 5 4\n<NUMERIC>\n"
MISTAKES += [
    Mistake("too few steps", other('"A""B" "A""C"', "FREQ(3,30)", "MOD()", TWO_ROWS,
                                   "<STEPS> 1"), "undecided: work, cell 4 above, 1 steps",
            ["it.job, line 10: <STEPS> 1", "Cell 4 is [A a1 · B b1] in table 1", "<STEPS> 10 "]),
    Mistake("no rounding", other('"A""B""C"', "FREQ(1,30)", "RND(2)", CUBE), "no rounding",
            ["it.job, line 5: RND(2)", "Table 1 has three variables"]),
    Mistake("too few nodes", other('"A""B""C"', "FREQ(1,30)", "RND(2)", CUBE, "<NODES> 1"),
            "undecided: nodes, 1", ["line 8: <NODES> 1", "<NODES> 10 "]),
    Mistake("too many cells that hang together", MANY, "undecided: size, cell 1 above, 4500 hidden",
            [
                "4,500 hidden cells", "4,000 at most", "4,501 cells, 4,500 of them sensitive",
                "A, which has 4,500"
            ], "run it.job", False),
]


def deep(*lines: str, **files: bytes) -> Dict[str, Optional[bytes]]:
    """The job of BASE with further lines, from line 9 on, and a priori files."""
    more: Dict[str, Optional[bytes]] = {"%s.hst" % name: data for name, data in files.items()}
    return {"it.job": JOB + "".join(it + "\n" for it in lines).encode(), **more}


# The certificate of that job with `<DEPTH> (1,"Region",1)`: one cube of the four inner cells.
CUT_CERTIFICATE = ("argus certificate 2\nmethod MOD\ncells 9\nrelations 6\nhidden 4 5 7 8\n" +
                   "".join("world %d %s 1 4:%d 5:%d 7:%d 8:%d\n" % (cell, side, n, -n, -n, n)
                           for cell, side, n in ((4, "above", 131), (4, "below", -131),
                                                 (5, "above", -323), (5, "below", 323),
                                                 (7, "above", -381), (7, "below", 381),
                                                 (8, "above", 149),
                                                 (8, "below", -149))) + "end\n").encode()

MISTAKES += [
    Mistake("a level of no table", deep('<DEPTH> (2,"Region",1)'),
            "refused: job line 9: NoSuchTable",
            ["it.job, line 9", "table 2", "one table, which is 1"]),
    Mistake("a level of the response", deep('<DEPTH> (1,"Turnover",1)'),
            "refused: job line 9: NotInTable", [
                'line 9, bytes 12 to 21: "Turnover"',
                "Table 1 (line 4) is spanned by Region and Size", "which is the response"
            ]),
    Mistake("a level of a name in small letters", deep('<DEPTH> (1,"region",1)'),
            "refused: job line 9: NotInTable",
            ["line 9", "large and small letters differ in Region"]),
    Mistake("a level of another table's variable",
            {**other('"A""B" "A"', "FREQ(3,30)", "MOD()", TWO_ROWS, '<DEPTH> (2,"B",1)')},
            "refused: job line 10: NotInTable", [
                "line 10, bytes 12 to 14", "Table 2 (line 4) is spanned by A, and not by B",
                "It spans table 1"
            ]),
    Mistake("a level of nothing", deep('<DEPTH> (1,"",1)'), "refused: job line 9: NotInTable",
            ["line 9", "not by an empty name"]),
    Mistake("two levels", deep('<DEPTH> (1,"Region",1)',
                               '<DEPTH> (1,"Region",2)'), "refused: job line 10: Twice",
            ["line 10", "Line 9 has <DEPTH> for table 1 and Region already"]),
    Mistake("a level that no tree has", deep('<DEPTH> (1,"Region",10)'),
            "refused: job line 9: BadValue", ["line 9, bytes 21 to 22: 10", "from 1 to 9"]),
    Mistake("level 0", deep('<DEPTH> (1,"Region",0)'), "refused: job line 9: BadValue",
            ["line 9, byte 21: 0", "from 1 to 9"]),
    Mistake("no level", deep('<DEPTH> (1,"Region")'), "refused: job line 9: BadValue",
            ["line 9, byte 20", "the last level"]),
    Mistake("a level without quotes", deep("<DEPTH> (1,Region,1)"), "refused: job line 9: BadValue",
            ["line 9", "straight double quotes"]),
    Mistake("a level without parentheses", deep('<DEPTH> 1,"Region",1'),
            "refused: job line 9: BadValue", ["line 9, byte 9", "opening parenthesis"]),
    Mistake("two variables in one line", deep('<DEPTH> (1,"Region",1,"Size",1)'),
            "refused: job line 9: BadValue", ["line 9, byte 22", "line of its own"]),
    Mistake("a command much like it", deep('<DEPHT> (1,"Region",1)'),
            "refused: job line 9: UnknownCommand", ["line 9", "is <DEPTH> meant?"]),
    Mistake("a priori below the last level",
            deep('<APRIORI> "p.hst",1,","', '<DEPTH> (1,"Region",1)', p=b"North,a,c,7\nN1,a,p\n"),
            "refused: apriori table 1 line 2: UnknownCode", [
                "p.hst, line 2, bytes 1 to 2: N1",
                "a code of level 2, and table 1 shows Region down to level 1 (it.job, line 10)",
                'above it, "North"'
            ]),
    Mistake("too few steps in a cut table",
            other('"A""B" "A""C"', "FREQ(3,30)", "MOD()", TWO_ROWS,
                  '<STEPS> 1\n<DEPTH> (1,"A",1)'), "undecided: work, cell 4 above, 1 steps",
            ["it.job, line 10: <STEPS> 1", "Cell 4 is [A a1 · B b1] in table 1"]),
    Mistake(
        "a table down to a level that is altered", {
            **deep('<DEPTH> (1,"Region",1)'), "table.csv":
            "Region,Size,Turnover\nTotal,Total,327.5\nTotal,a,170.6\n".encode(),
            "table.cert":
            CUT_CERTIFICATE
        }, "not accepted: Release 1 3", ["table.csv, line 3", '"Total,a,170.5"'], "check it.job"),
]

# What argus releases, and an office may not have meant.
FLAT = b"Size 5 7\nTurnover 12 7\n<NUMERIC>\n"
FLAT_JOB = JOB.replace(b'"Region""Size"', b'"Size"').replace(b"FREQ(3,30)", b"FREQ(2,30)")


def sized(*rows: str) -> Dict[str, Optional[bytes]]:
    """A job by size classes alone: the records as they stand; Size has the bytes 5 to 11, and
    Turnover 12 to 18."""
    return {
        "it.job": FLAT_JOB,
        "firms.rda": FLAT,
        "firms.asc": "".join(it + "\n" for it in rows).encode()
    }


def firm(size: str, turnover: int) -> str:
    return "N1  %-7s%7d" % (size, turnover)


def early(size: str, turnover: int) -> str:
    """The same with all from Size on a byte earlier."""
    return "N1 %-7s%7d " % (size, turnover)


# A kind of refusal each, of those that no mistake above has.
FRONT = b"argus certificate 2\nmethod MOD\ncells 21\nrelations 18\n"
NINE = b'<SPECIFYTABLE> "Region"|"Turnover"\n' * 9
CODES = b"".join(b"%04d\n" % k for k in range(5001))


def written(certificate: bytes) -> Dict[str, Optional[bytes]]:
    """A certificate of the job of BASE, beside its table."""
    return {"table.cert": certificate, "table.csv": b"Region,Size,Turnover\n"}


MISTAKES += [
    Mistake("unsafe without records", {
        **deep('<APRIORI> "a.hst",1,","', a=b"S3,a,u\n"),
        **hierarchy(HIERARCHY + b"@S3\n")
    }, "refused: apriori table 1 line 1: EmptyUnsafe", ["a.hst, line 1", "S3", "no records"]),
    Mistake("a lead alone", hierarchy(b"North\n@N1\n@\n"), "refused: hierarchy 1 line 3: NoCode",
            ["region.hrc, line 3", "no code behind it"]),
    Mistake("ten levels", hierarchy(b"".join(b"@" * k + b"%d\n" % k for k in range(10))),
            "refused: hierarchy 1 line 10: TooDeep", ["region.hrc, line 10", "9 times", "nine"]),
    Mistake("too many codes in a hierarchy", hierarchy(CODES),
            "refused: hierarchy 1 line 5001: TooMany", ["region.hrc, line 5001", "5,000 codes"]),
    Mistake("too many codes in a list", {
        **metadata(b"Size 5 1 9\n", b'Size 5 1 9\n<CODELIST> "size.cdl"\n'), "size.cdl": CODES
    }, "refused: codelist 2 line 5001: TooMany", ["size.cdl, line 5001", "Size"]),
    Mistake("another response",
            job(b'|"Turnover"\n', b'|"Turnover"\n<SPECIFYTABLE> "Size"|"Weight"\n'),
            "refused: job line 5: OtherResponse", ["it.job, line 5", "Weight", "line 4"]),
    Mistake("nine tables", job(b'<SPECIFYTABLE> "Region""Size"|"Turnover"\n', NINE),
            "refused: job line 12: TooMany", ["it.job, line 12", "ninth table"]),
    Mistake("a keyword first", metadata(b"Region 1 4\n", b"<NUMERIC>\nRegion 1 4\n"),
            "refused: metadata line 1: BadName", ["firms.rda, line 1", "none yet"]),
    Mistake("65 variables", {"firms.rda": METADATA + b"".join(b"V%d 1 1\n" % k for k in range(61))},
            "refused: metadata line 72: TooMany", ["firms.rda, line 72", "variable 65"]),
    Mistake("a variable of the metadata twice", {"firms.rda": METADATA + b"Region 1 4\n"},
            "refused: metadata line 12: Twice", ["firms.rda, line 12", "Line 1 has"]),
    Mistake("a record too long", record(3, RECORDS[2][:-1] + b" " * 984 + b"\n"),
            "refused: record 3: TooLong", ["firms.asc, line 3 has 1,001 bytes", "1,000"]),
    Mistake(
        "too many codes in records", {
            **other('"A"', "FREQ(3,30)", "MOD()", b"".join(b"%04d   1\n" % k for k in range(
                1, 5002))), "firms.rda":
            b"A 1 4\nV 5 4\n<NUMERIC>\n"
        }, "refused: record 5001: TooManyCodes", ["firms.asc, line 5001: A", "5,000 codes"]),
    Mistake("a mark before the certificate", written(b"\xef\xbb\xbf" + FRONT),
            "refused: certificate line 1: Version", ["table.cert, line 1", "byte-order mark"],
            "check it.job"),
    Mistake("a line that isn't wanted", written(FRONT + b"hiden 4\n"),
            "refused: certificate line 5: Shape", ["table.cert, line 5", "hiden 4"],
            "check it.job"),
    Mistake("a zero in front", written(FRONT.replace(b"21", b"021")),
            "refused: certificate line 3: Number", ["table.cert, line 3", "cells 021", "zeros"],
            "check it.job"),
    Mistake("a list that doesn't ascend", written(FRONT + b"hidden 5 4\nend\n"),
            "refused: certificate line 5: Order", ["table.cert, line 5", "ascend"], "check it.job"),
    Mistake("a certificate without its end", written(FRONT + b"hidden 4 5 7 8\n"),
            "refused: certificate line 6: NoEnd", ["table.cert, line 6", "cut off"],
            "check it.job"),
]

DOUBTS = [
    Mistake("lines without their last byte", sized("N1 50-249      12",
                                                   "N1 50-249      13"), "refused: record 1: Short",
            ["firms.asc, line 1 has 17 bytes", "Turnover goes to byte 18"]),
    Mistake("ranges without their first digit",
            sized(early("50-249", 12), early("50-249", 13), early("10-49", 14), early("10-49", 15)),
            "released: 4 records, 0 skipped, 0 passed over, 3 cells, 0 primary, 0 hidden",
            ["firms.asc, line 1 and 3 more", '"0-249"', 'is the code "50-249"?']),
    Mistake(
        "two records a byte off",
        sized(firm("50-249", 12), firm("50-249", 13), firm("0-9", 14), firm("0-9", 15),
              early("50-249", 16), early("50-249", 17)),
        "released: 6 records, 0 skipped, 0 passed over, 4 cells, 0 primary, 0 hidden",
        ["line 5", '"0-249"', '"50-249"']),
    Mistake("a value in another unit",
            sized(firm("50-249", 12), firm("50-249", 13000), firm("0-9", 10), firm("0-9", 11)),
            "released: 4 records, 0 skipped, 0 passed over, 3 cells, 0 primary, 0 hidden",
            ["line 2", '"13000"', "1,083 times"]),
    Mistake("no record counts", sized("N1  50-249        ", "N1  50-249        "),
            "released: 0 records, 2 skipped, 0 passed over, 1 cells, 0 primary, 0 hidden",
            ["no record counts", "2 skipped"]),
    Mistake("a mark before the records",
            sized("\ufeff" + firm("50-249", 12), firm("50-249", 12), firm("50-249", 12)),
            "released: 3 records, 0 skipped, 0 passed over, 3 cells, 1 primary, 2 hidden",
            ["byte-order mark"]),
]

# Variables that overlap: INDUSTRY has levels, CLASS is the same field without them, DIVISION its
# first byte, GROUP a field of its own that goes with it, and ACROSS has a byte of Class and one of
# Region.
FIELDS = {
    "Industry": "Industry 1 2\n<HIERARCHICAL>\n<HIERLEVELS> 1 1\n",
    "Class": "Class 1 2\n",
    "Division": "Division 1 1\n",
    "Region": "Region 3 2\n",
    "Across": "Across 2 2\n",
    "Group": "Group 5 5\n",
    "Size": "Size 10 1\n",
    "One": "One 11 1\n"
}
CODES = [(industry, region, group, size)
         for industry, group in (("11", "Food"), ("12", "Food"), ("21", "Steel"), ("22", "Steel"))
         for region in ("r1", "s2") for size in "ab"]
FIRMS = "".join("%s%s%-5s%sx%4d\n" % (*it, 10 + k) for k, it in enumerate(CODES * 2))


class Overlap(NamedTuple):
    """Tables by their variables, further lines of the job, and for each doubt the two names and
    words that it must have."""

    tables: List[str]
    more: List[str]
    doubts: List[List[str]]


def files_of(it: Overlap) -> Dict[str, bytes]:
    used = {name for table in it.tables for name in table.split()}
    lines = ['<OPENMICRODATA> "m.asc"', '<OPENMETADATA> "m.rda"'] + [
        '<SPECIFYTABLE> %s|"V"' % "".join('"%s"' % name for name in table.split())
        for table in it.tables
    ]
    lines += ["<SAFETYRULE> FREQ(1,30)", "<SUPPRESS> MOD()"
              ] + ['<WRITETABLE> (%d,"%d.csv")' % (k, k)
                   for k in range(1,
                                  len(it.tables) + 1)] + ['<CERTIFICATE> "it.cert"'] + it.more
    return {
        "it.job":
        "".join(line + "\n" for line in lines).encode(),
        "m.asc":
        FIRMS.encode(),
        "m.rda": ("".join(text for name, text in FIELDS.items() if name in used) +
                  "V 12 4\n<NUMERIC>\n").encode()
    }


OVERLAPS = [
    Overlap(["Industry Region", "Industry"], ['<DEPTH> (2,"Industry",1)'], []),
    Overlap(["Industry Region", "Size"], [], []),
    Overlap(["Industry One", "Region One"], [], []),
    Overlap(["Industry Region", "Division Region"], [], [[
        "Industry", "Division", "they share byte 1 of the record",
        "each code of Industry occurs with a single code of Division",
        'table 2 takes Industry in place '
        'of Division, with <DEPTH> '
        '(2,"Industry",1).'
    ]]),
    Overlap(["Division Region", "Industry Region", "Division Size"], [], [[
        "Industry", "Division", "tables 1 and 3 take Industry", '<DEPTH> '
        '(1,"Industry",1) '
        'and <DEPTH> '
        '(3,"Industry",1).'
    ]]),
    Overlap(["Class Region", "Division"], [], [[
        "Class", "Division", "Class gets a hierarchy with the codes of Division as level 1",
        '<DEPTH> (2,"Class",1).'
    ]]),
    Overlap(["Industry Region", "Group"], [], [[
        "Industry", "Group", "each code of Industry occurs with a single code of Group",
        '<DEPTH> (2,"Industry",1).'
    ]]),
    Overlap(["Industry Group", "Group"], [], [[
        "Industry", "Group",
        "table 1 leaves Group out, and table 2 takes Industry in place of Group",
        '<DEPTH> (2,"Industry",1).'
    ]]),
    Overlap(["Industry Group"], [], [[
        "Industry", "Group", "table 1 leaves Group out",
        '<DEPTH> (1,"Industry",1) it shows the codes of Group alone.'
    ]]),
    Overlap(["Division", "Group"], [], [[
        "Division", "Group", "each code of one occurs with a single code of the other",
        'table 1 takes Group in place of Division, with <DEPTH> (1,"Group",1).'
    ]]),
    Overlap(["Industry", "Class"], [], [[
        "Industry", "Class", "they share bytes 1 to 2 of the record",
        'table 2 takes Industry in place of Class, with <DEPTH> (2,"Industry",2).'
    ]]),
    Overlap(["Industry", "Class"], ['<DEPTH> (1,"Industry",1)'], [[
        "Industry", "Class", "table 2 takes Industry in place of Class, with",
        '<DEPTH> (2,"Industry",2).'
    ]]),
    Overlap(["Class", "Across"], [], [[
        "Class", "Across", "they share byte 2 of the record", "Neither is a level of the other",
        '<DEPTH> (1,"Class",1).'
    ]]),
    Overlap(["Region", "Across", "Class"], [],
            [["Class", "Across", "<DEPTH> (3,"],
             [
                 "Region", "Across", "they share byte 3",
                 "each code of Across occurs with a single code of Region", '<DEPTH> '
                 '(1,"Across",1)'
             ]]),
    Overlap(["Industry Region", "Division", "Group", "Class"], [],
            [["Industry", it] for it in ("Class", "Division", "Group")] +
            [["Class", "Division"], ["Class", "Group"], ["Division", "Group"]]),
]
