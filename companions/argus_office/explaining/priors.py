"""A priori files: what is wrong with a line that argus refused (docs/MANUAL.md, What is refused in
an a priori file)."""

from fractions import Fraction
from typing import List, NamedTuple, Optional, Tuple

from argus_office.explaining.records import like_code
from argus_office.explaining.texts import absent, foreign
from argus_office.reading.arguments import Prior
from argus_office.reading.book import Book
from argus_office.reading.files import (BLANKS, MARK, bare, bytes_range, content, is_number,
                                        lines_of, listed, shown, shown_name)
from argus_office.reading.job import Job, Line
from argus_office.reading.priors import Statement
from argus_office.reading.records import units_of

# For each keyword how many fields follow it, and what they are.
KEYWORDS = {
    "u": (0, "unsafe"),
    "s": (0, "safe"),
    "p": (0, "always shown"),
    "c": (1, "the price, a whole number from 1 to 2^40"),
    "pl": (2, "the levels: downwards from 0, upwards from one unit"),
    "b": (2, "what an attacker knows: at least, at most")
}
FORM = "u, s and p have no field, c has one, pl and b have two"
MOST = 10**29


class Field(NamedTuple):
    """A field of a line, without the blanks round it: where it begins in the line, from 0."""

    text: bytes
    at: int


def fields_of(raw: bytes, separator: bytes) -> List[Field]:
    """The fields of a line."""
    found, at = [], 0
    for piece in raw.split(separator):
        found.append(Field(piece.strip(BLANKS), at + len(piece) - len(piece.lstrip(BLANKS))))
        at += len(piece) + len(separator)
    return found


class Look:
    """One refused line, looked at."""
    def __init__(self, job: Job, at: Line, prior: Prior, line: int):
        self.job, self.at, self.prior, self.line = job, at, prior, line
        self.data = content(prior.file)
        lines = lines_of(self.data)
        self.raw = lines[line - 1] if 0 < line <= len(lines) else None
        self.fields = fields_of(self.raw or b"", prior.separator)
        tables = job.tables()
        self.variables = tables[prior.table - 1][1].variables if prior.table <= len(tables) else []
        self.wide = len(self.variables)

    def place(self) -> str:
        """The line in words."""
        return "%s, line %d" % (shown_name(self.prior.file), self.line)

    def head(self, field: Optional[Field] = None) -> str:
        """The line at fault, or one of its fields."""
        if field is None or not field.text:
            return "%s: %s" % (self.place(), bare(self.raw or b""))
        return "%s, %s: %s" % (self.place(), bytes_range(
            field.at + 1, field.at + len(field.text)), bare(field.text))

    def keyword(self) -> str:
        """The keyword behind the codes, in small letters."""
        return self.fields[self.wide].text.decode("latin-1").lower() if len(
            self.fields) > self.wide else ""

    def numbers(self) -> List[Field]:
        """The fields behind the keyword."""
        return self.fields[self.wide + 1:]


def prior_at(job: Job, table: int) -> Optional[Tuple[Line, Prior]]:
    """The a priori file of a table, with its line of the job."""
    return next(((line, it) for line, it in job.priors() if it.table == table), None)


def absent_file(job: Job, table: int) -> List[str]:
    """What to say of an a priori file that is absent."""
    found = prior_at(job, table)
    if found is None:
        return ["%s names no a priori file of table %d now." % (shown_name(job.name), table)]
    line, prior = found
    ends = prior.file[prior.file.rfind(b"."):].decode("latin-1") if b"." in prior.file else ""
    return ["%s: %s" %
            (job.place(line.number), bare(line.raw))] + absent(prior.file, ends, job.name)


def explain(job: Job, table: int, line: int, kind: str) -> List[str]:
    """What to say of `refused: apriori table T line N: KIND`."""
    found = prior_at(job, table)
    if found is None:
        return ["%s names no a priori file of table %d now." % (shown_name(job.name), table)]
    look = Look(job, found[0], found[1], line)
    if look.raw is None:
        return [
            "%s has only %d lines now; has it changed since argus read it?" %
            (shown_name(look.prior.file), len(lines_of(look.data)))
        ]
    said = {
        "BadShape": bad_shape,
        "UnknownCode": unknown_code,
        "BadNumber": bad_number,
        "EmptyUnsafe": empty_unsafe,
        "OutsideTruth": outside_truth,
        "Twice": twice,
        "ProtectedPrimary": protected_primary
    }.get(kind)
    lines = said(look) if said else []
    if not lines:
        lines = [
            look.head(),
            "Nothing is wrong with this line as it stands now; has the file changed since "
            "argus read it?"
        ]
    whole_file = foreign(look.data)
    return lines + [whole_file] if whole_file and not any("byte-order mark" in it
                                                          for it in lines) else lines


def bad_shape(look: Look) -> List[str]:
    """Too few or too many fields, or no keyword where one is wanted."""
    separator = look.prior.separator
    many = "%d code%s (%s)" % (look.wide, "" if look.wide == 1 else "s",
                               listed(map(shown_name, look.variables)))
    if len(look.fields) <= look.wide:
        return too_few(look, many)
    keyword, given = look.keyword(), len(look.numbers())
    field = look.fields[look.wide]
    if keyword not in KEYWORDS:
        first = "After %s a keyword is wanted: u, s, p, c, pl or b." % many
        at = next((k for k, it in enumerate(look.fields) if is_keyword(it)), None)
        more = "Files of tau-ARGUS have other keywords (the manual, Lines of an a priori file)."
        if at is not None:
            codes = "is one code" if at == 1 else "are %d codes" % at
            more = "There %s before the keyword." % codes
        return [look.head(field), first, more]
    wanted, what = KEYWORDS[keyword]
    if given == wanted:
        return []
    more = ""
    if separator == b"," and given > wanted:
        more = " A comma inside a number separates fields: the decimal mark is a point."
    return [
        look.head(),
        "After %s there %s %d field%s, and it has %d%s.%s" %
        (keyword, "is" if wanted == 1 else "are", wanted, "" if wanted == 1 else "s", given,
         " (%s)" % what if wanted else "", more),
        "The keywords %s." % FORM
    ]


def is_keyword(field: Field) -> bool:
    """Whether a field is a keyword."""
    return field.text.decode("latin-1").lower() in KEYWORDS


def too_few(look: Look, many: str) -> List[str]:
    """What to say of a line with no field behind its codes; MANY says how many codes it has."""
    raw, separator = look.raw or b"", look.prior.separator
    if raw.strip(BLANKS).startswith((b"//", b"#")):
        return [look.head(), "No line of an a priori file is a comment: delete it."]
    count = len(look.fields)
    first = "It has %d field%s; a line has %s, a keyword and its fields." % (count, "" if count == 1
                                                                             else "s", many)
    other = next((it for it in (b";", b",", b"|", b"\t") if it != separator and it in raw), None)
    if other is None:
        return [look.head(), first]
    where = look.job.place(look.at.number)
    return [
        look.head(), first,
        "Between its fields it seems to have %s, and the job says %s (%s). Change one of the two." %
        (shown(other), shown(separator), where)
    ]


def unknown_code(look: Look) -> List[str]:
    """The first code that its variable lacks, or that lies deeper than the table goes."""
    book = Book(look.job)
    spans, levels = book.tables[look.prior.table - 1], book.levels[look.prior.table - 1]
    for position, k in enumerate(spans):
        field, tree, variable = look.fields[position], book.trees[k], book.variables[k]
        if tree.has(field.text, levels[position]):
            continue
        if field.text in tree.at:
            return too_deep(look, book, field, k)
        from_other = [book.variables[j] for j in spans if field.text in book.trees[j].at and j != k]
        first = "%s has no such code" % shown_name(variable.name)
        if from_other:
            return [
                look.head(field),
                "%s, but %s has it: codes come in the table's order, %s." %
                (first, shown_name(from_other[0].name), listed(map(shown_name, look.variables)))
            ]
        if field.text.startswith(MARK):
            return [
                look.head(field),
                "The file begins with a byte-order mark (bytes ef bb bf), which is part of "
                "this code to argus. Take it out: tail -c +4 OLD > NEW."
            ]
        like = like_code(field.text, tree.codes)
        if like:
            return [look.head(field), "%s, but %s." % (first, like)]
        total = "; its total is %s" % shown(tree.codes[0])
        return [
            look.head(field),
            "%s%s, and codes %s." % (first, total, listed([shown(it) for it in tree.codes[1:]], 8))
        ]
    return []


def too_deep(look: Look, book: Book, field: Field, k: int) -> List[str]:
    """A code below the last level that the table shows of its variable."""
    table, tree, variable = look.prior.table, book.trees[k], book.variables[k]
    place = tree.at[field.text]
    found = look.job.depth_at(table, variable.name)
    level = look.job.level(table, variable.name)
    where = " (%s)" % look.job.place(found[0].number) if found else ""
    above = tree.codes[tree.up(place, level)[0]]
    others = [
        str(t) for t, (spans, cuts) in enumerate(zip(book.tables, book.levels), 1)
        if any(it == k and cut >= tree.depths[place] for it, cut in zip(spans, cuts))
    ]
    rest = "; or put the line into the a priori file of table %s, which shows it" % " or ".join(
        others) if others else ""
    return [
        look.head(field),
        "That is a code of level %d, and table %d shows %s down to level %d%s." %
        (tree.depths[place], table, shown_name(variable.name), level, where),
        "Write the table's code above it, %s%s." % (shown(above), rest)
    ]


def bad_number(look: Look) -> List[str]:
    """A price, a level or a bound."""
    keyword = look.keyword()
    if keyword == "c":
        field = look.numbers()[0]
        if not is_number(field.text):
            return [look.head(field), "A price is a whole number: digits and nothing else."]
        price = int(field.text) if len(field.text) < 60 else 10**60
        return [] if 1 <= price <= 2**40 else [
            look.head(field),
            "A price goes from 1 to 2^40 (1,099,511,627,776). To show the cell in any case, "
            "write p in its place."
        ]
    decimals = decimals_of(look)
    for k, field in enumerate(look.numbers()):
        value = units_of(field.text, decimals)
        if value is None:
            return [
                look.head(field),
                "A level or a bound is digits with at most one point, and %s after it%s." %
                ("no digit" if not decimals else "at most %d digit%s" %
                 (decimals, "" if decimals == 1 else "s"),
                 " (the response has no decimals)" if not decimals else "")
            ]
        if value > MOST:
            return [
                look.head(field),
                "It is more than 10^29 units, the most that a level or a bound can be."
            ]
        if keyword == "pl" and k == 1 and not value:
            return [
                look.head(field),
                "The level upwards is one unit at least. A cell that needs no protection has "
                "the keyword s."
            ]
    return []


def decimals_of(look: Look) -> int:
    """How many decimals a level or a bound may have."""
    metadata = look.job.metadata()
    tables = look.job.tables()
    response = metadata.find(tables[0][1].response) if tables else None
    weight = metadata.weight() if look.job.is_weighted() else None
    return (response.decimals() if response else 0) + (weight.decimals() if weight else 0)


def statement_at(look: Look, book: Book) -> Optional[Tuple[Statement, int]]:
    """The statement of the line, and its cell."""
    mine = next(
        (it for it in book.statements
         if it.file == look.prior.file and it.line == look.line and it.table == look.prior.table),
        None)
    cell = book.cell_of(mine) if mine is not None else None
    return (mine, cell) if mine is not None and cell is not None else None


def empty_unsafe(look: Look) -> List[str]:
    """A cell without records that is to be protected."""
    book = Book(look.job)
    found = statement_at(look, book)
    if found is None or book.cells[found[1]].freq:
        return []
    return [
        look.head(),
        "[%s] has no records: it shows 0, and there is nobody to protect. Delete the line, or "
        "correct its codes." % book.short(found[1])
    ]


def outside_truth(look: Look) -> List[str]:
    """Bounds that the value of the cell breaks."""
    book = Book(look.job)
    found = statement_at(look, book)
    if found is None or len(look.numbers()) != 2:
        return []
    truth = book.cells[found[1]].truth
    low, high = (units_of(it.text, book.decimals) for it in look.numbers())
    if low is None or high is None or low <= truth <= high:
        return []
    side = "at least %s" % book.show(Fraction(low)) if low > truth else "at most %s" % book.show(
        Fraction(high))
    field = look.numbers()[0 if low > truth else 1]
    return [
        look.head(field),
        "The line says that [%s] is %s, and its value is %s: nobody can know that." %
        (book.short(found[1]), side, book.show(Fraction(truth))),
        "Correct the bounds, in the decimals of the table and not in units. Or is the "
        "line that of another cell?"
    ]


def twice(look: Look) -> List[str]:
    """The earlier line that says otherwise of the cell."""
    book = Book(look.job)
    found = statement_at(look, book)
    if found is None:
        return []
    mine, cell = found
    against = {"u": "s", "s": "u"}.get(mine.keyword, mine.keyword)
    for other in book.statements:
        if other is mine:
            break
        if book.cell_of(other) == cell and other.keyword == against and (
                other.keyword != mine.keyword or other.fields != mine.fields):
            said = "%s: %s" % (other.place(),
                               shown(
                                   book.separator(other).join(other.codes +
                                                              [other.keyword.encode("latin-1")] +
                                                              other.fields)))
            return [
                look.head(),
                "The cell [%s] has another line that says otherwise, %s." %
                (book.short(cell), said), "Keep one of the two."
            ]
    return []


def protected_primary(look: Look) -> List[str]:
    """A sensitive cell that is to be shown."""
    book = Book(look.job)
    found = statement_at(look, book)
    if found is None or book.cells[found[1]].status != "primary":
        return []
    it = book.cells[found[1]]
    why = listed(it.rules + (["its u line (%s)" % it.said["u"].place()] if "u" in it.said else []))
    return [
        look.head(),
        "[%s], %s from %d record%s, is sensitive by %s, and a sensitive cell can't be shown." %
        (book.short(found[1]), book.show(Fraction(
            it.truth)), it.freq, "" if it.freq == 1 else "s", why),
        "Delete the line; or write s in place of p, where the office knows that the figure "
        "is safe."
    ]
