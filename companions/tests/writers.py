"""Made registers, and CSVs of them as R, Python, pandas, a database, SAS and spreadsheets write
them.

A register is a list of records: a firm's name, region, branch, group of the branch, size class,
weight and turnover, the last as whole hundredths. Some regions, branches and turnovers are missing
(None). Each way of writing has what one has to know to read its file again.
"""

import csv
import io
import random
from typing import Any, Callable, List, NamedTuple, Sequence

HEAD = ["firm", "region", "branch", "group", "size", "weight", "turnover"]
REGIONS = ["North", "South", "Ost & West", "S\u00fcd"]
# The first letter is a level, the digit the next one; the group of a branch is by its letter.
BRANCHES = ["%s%d" % (letter, digit) for letter in "ABC" for digit in range(1, 4)]
GROUPS = {"A": "Food", "B": "Steel", "C": "Trade & more"}


class Way(NamedTuple):
    """How a program writes a CSV, and the words that start needs for it."""

    name: str
    separator: str
    decimal: str
    thousands: str
    encoding: str
    missing: str
    write: Callable[[Sequence[Sequence[Any]], "Way"], str]
    words: Sequence[str] = ()


def register(seed: int, count: int) -> Sequence[Sequence[Any]]:
    draw = random.Random(seed)
    made = []
    for k in range(count):
        branch = draw.choice(BRANCHES)
        firm = draw.choice([
            "Firm %d" % k,
            "Firm; %d" % k,
            'The "%d"' % k,
            "Firm, %d" % k,
            "Firm\n%d" % k
        ])
        value = draw.choice([
            draw.randrange(1, 10**4),
            draw.randrange(1, 10**8),
            draw.randrange(1, 90) * 10**7
        ])
        there = branch if k % 23 != 11 else None
        region = draw.choice(REGIONS) if k % 19 != 7 else None
        made.append([
            firm, region, there, there and GROUPS[branch[0]],
            "S%d" % draw.randrange(3),
            draw.randrange(10, 60), None if k % 17 == 5 else value
        ])
    return made


def plain(hundredths: int, places: int = 2) -> str:
    return "%d.%0*d" % (hundredths // 10**places, places, hundredths % 10**places)


def short(text: str) -> str:
    """Without zeros at the end, as most programs write numbers."""
    return text.rstrip("0").rstrip(".") if "." in text else text


def rounded_like_r(text: str) -> str:
    """R writes a round number with an exponent where that is shorter."""
    digits = text.rstrip("0")
    zeros = len(text) - len(digits)
    return text if "." in text or zeros < 5 or len(digits) != 1 else "%se+%02d" % (digits, zeros)


def grouped(text: str, way: Way) -> str:
    """With marks between thousands and the decimal mark of the way."""
    whole, point, rest = text.partition(".")
    parts: List[str] = []
    while len(whole) > 3:
        whole, parts = whole[:-3], [whole[-3:], *parts]
    return way.thousands.join([whole, *parts]) + (way.decimal + rest if point else "")


def quoted(text: str) -> str:
    return '"%s"' % text.replace('"', '""')


def r(records: Sequence[Sequence[Any]], way: Way) -> str:
    """write.csv: row names, texts in quotes, numbers bare, NA."""
    lines = [way.separator.join(map(quoted, ["", *HEAD]))]
    for k, (*texts, weight, value) in enumerate(records, 1):
        numbers = [
            short(plain(weight, 1)), "NA" if value is None else rounded_like_r(short(plain(value)))
        ]
        lines.append(
            way.separator.join([
                quoted(str(k)), *("NA" if it is None else quoted(it) for it in texts),
                *(it.replace(".", way.decimal) for it in numbers)
            ])
        )
    return "\n".join(lines) + "\n"


def by_need(rows: Sequence[Sequence[str]], way: Way, end: str) -> str:
    """Quotes only where a field needs them."""
    text = io.StringIO()
    csv.writer(text, delimiter=way.separator, lineterminator=end).writerows(rows)
    return text.getvalue()


def texts_of(record: Sequence[Any], way: Way) -> List[str]:
    return [way.missing if it is None else it for it in record[:5]]


def numbers_of(record: Sequence[Any], way: Way) -> List[str]:
    return [
        plain(record[5], 1).replace(".", way.decimal),
        way.missing if record[6] is None else grouped(plain(record[6]), way)
    ]


def readr(records: Sequence[Sequence[Any]], way: Way) -> str:
    """write_csv: quotes where a field needs them, NA, and round numbers written out."""
    rows = [[
        *texts_of(it, way),
        short(plain(it[5], 1)), "NA" if it[6] is None else short(plain(it[6]))
    ] for it in records]
    return by_need([HEAD, *rows], way, "\n")


def python(records: Sequence[Sequence[Any]], way: Way) -> str:
    return by_need([HEAD, *([*texts_of(it, way), *numbers_of(it, way)] for it in records)], way,
                   "\r\n")


def pandas(records: Sequence[Sequence[Any]], way: Way) -> str:
    """to_csv: the index first, one decimal at least, nothing for NaN."""
    def number(text: str) -> str:
        return (short(text) if "." in short(text) else short(text) + ".0").replace(".", way.decimal)

    rows = [[
        str(k), *texts_of(it, way),
        number(plain(it[5], 1)), "" if it[6] is None else number(plain(it[6]))
    ] for k, it in enumerate(records)]
    return by_need([["", *HEAD], *rows], way, "\n")


def libreoffice(records: Sequence[Sequence[Any]], way: Way) -> str:
    """Every text in quotes, numbers as shown."""
    lines = [way.separator.join(map(quoted, HEAD))]
    lines += [
        way.separator.join([
            *(quoted(text) if text else "" for text in texts_of(it, way)),
            *(quoted(n) if way.separator in n else n for n in numbers_of(it, way))
        ]) for it in records
    ]
    return "\n".join(lines) + "\n"


def spreadsheet(records: Sequence[Sequence[Any]], way: Way) -> str:
    """As a spreadsheet under Windows saves: CR and LF, and lines of separators below."""
    return by_need([HEAD, *([*texts_of(it, way), *numbers_of(it, way)] for it in records)], way,
                   "\r\n") + 2 * (way.separator * (len(HEAD) - 1) + "\r\n")


def marked(records: Sequence[Sequence[Any]], way: Way) -> str:
    return "\ufeff" + spreadsheet(records, way)


def with_sep_line(records: Sequence[Sequence[Any]], way: Way) -> str:
    return "sep=%s\r\n" % way.separator + spreadsheet(records, way)


def old_mac(records: Sequence[Sequence[Any]], way: Way) -> str:
    return spreadsheet([[it[0].replace("\n", " "), *it[1:]] for it in records],
                       way).replace("\r\n", "\r")


def database(records: Sequence[Sequence[Any]], way: Way) -> str:
    return by_need([
        HEAD, *([*texts_of(it, way),
                 plain(it[5], 1), "" if it[6] is None else plain(it[6])] for it in records)
    ], way, "\n")


NA, LATIN = ("--missing", "NA"), ("--encoding", "latin-1")
WAYS = [
    Way("R's write.csv", ",", ".", "", "utf-8", "NA", r, NA),
    Way("R's write.csv2", ";", ",", "", "utf-8", "NA", r, NA),
    Way("R's write.csv in Latin-1", ",", ".", "", "latin-1", "NA", r, (*NA, *LATIN)),
    Way("readr's write_csv", ",", ".", "", "utf-8", "NA", readr, NA),
    Way("Python's csv", ",", ".", "", "utf-8", "", python),
    Way("Python's csv with tabs", "\t", ".", "", "utf-8", "..", python, ("--missing", "..")),
    Way("pandas", ",", ".", "", "utf-8", "", pandas),
    Way("pandas with semicolons", ";", ",", "", "utf-8", "", pandas),
    Way("LibreOffice", ",", ".", "", "utf-8", "", libreoffice),
    Way("LibreOffice in German", ";", ",", ".", "utf-8", "", libreoffice),
    Way("LibreOffice with decimal commas between commas", ",", ",", ".", "utf-8", "", libreoffice),
    Way("a Windows spreadsheet", ",", ".", ",", "utf-8", "", marked),
    Way("a Windows spreadsheet in German", ";", ",", ".", "utf-8", "", marked),
    Way(
        "a Windows spreadsheet in German, Latin-1", ";", ",", ".", "latin-1", "", spreadsheet, LATIN
    ),
    Way("a Windows spreadsheet in French", ";", ",", "\u202f", "utf-8", "", marked),
    Way(
        "a Windows spreadsheet in French, Latin-1", ";", ",", "\u00a0", "latin-1", "", spreadsheet,
        LATIN
    ),
    Way("a Windows spreadsheet in Swiss German", ";", ".", "\u2019", "utf-8", "", marked),
    Way(
        "a Windows spreadsheet with a line sep=", ";", ",", "", "latin-1", "", with_sep_line, LATIN
    ),
    Way("a Windows spreadsheet, text with tabs", "\t", ",", ".", "latin-1", "", spreadsheet, LATIN),
    Way("an old Macintosh", ";", ",", "", "utf-8", "", old_mac),
    Way("a database", ",", ".", "", "utf-8", "", database),
    Way("SAS", ",", ".", "", "utf-8", ".", python, ("--missing", ".")),
]
