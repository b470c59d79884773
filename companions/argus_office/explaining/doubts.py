"""`released: ..` with a doubt: what argus took as it stands, and what an office may not have meant.
argus has released all the same.

Each doubt is one line. Nothing is said where nothing looks odd (docs/MANUAL.md, Before the first
release of new data).
"""

import re
from collections import Counter
from typing import Dict, List, Optional, Tuple

from argus_office.explaining.insiders import insiders
from argus_office.explaining.overlaps import overlaps
from argus_office.explaining.texts import foreign
from argus_office.reading.files import (BLANKS, MARK, Unread, bytes_range, content, grouped,
                                        lines_of, shown, shown_name)
from argus_office.reading.job import Job
from argus_office.reading.metadata import Variable
from argus_office.reading.records import Microdata, Record, is_skipped, units_of
from argus_office.reading.trees import code_list, kind_of

# A value so many times the next largest is doubted.
FAR = 1000
# So many bytes of microdata are looked at after each run, which takes some seconds; larger files
# are looked at by hand alone.
MOST_AFTER_A_RUN = 10_000_000
# So many doubts are said at most, besides those about variables that overlap, which are all said.
MOST_DOUBTS = 6


def explain(job: Job, answer: str, is_after_run: bool) -> List[str]:
    """The doubts about a release, by its line: after a run, or by hand."""
    data = Microdata(job)
    return odd(data, job, answer, is_after_run)[:MOST_DOUBTS] + overlaps(data)


def odd(data: Microdata, job: Job, answer: str, is_after_run: bool) -> List[str]:
    """What looks odd in the records and in the files of codes."""
    if is_after_run and len(data.data) > MOST_AFTER_A_RUN:
        return [
            "%s has %s bytes, so nothing was looked at but whether variables overlap. To look: "
            "argus explain %s '%s'" %
            (shown_name(data.name), grouped(len(data.data)), shown_name(job.name), answer)
        ]
    found = re.match(r"released: (\d+) records, (\d+) skipped", answer)
    if found and not int(found[1]):
        return [
            "%s: no record counts (%s skipped), so every figure is 0." %
            (shown_name(data.name), found[2])
        ] + marked(data)
    whole_file = foreign(data.data) if not data.data.startswith(MARK) else None
    said = ["%s: %s" % (shown_name(data.name), whole_file)] if whole_file else []
    said += marked(data) + letters(data) + cut_codes(data) + cut_ranges(data) + cut_numbers(
        data) + far(data) + total(data) + indented(data)
    return said + insiders(job) + passed_over(data)


def marked(data: Microdata) -> List[str]:
    """Files with a byte-order mark in front, which is part of their first code or record."""
    names = [data.name] + [
        name for it in data.names.spanning
        for name in (it.says("CODELIST"), it.says("HIERCODELIST")) if name is not None
    ]
    found = []
    for name in names:
        try:
            if content(name).startswith(MARK):
                found.append(
                    "%s begins with a byte-order mark (ef bb bf), which is part of its first "
                    "%s. Take it out: tail -c +4 OLD > NEW." %
                    (shown_name(name), "record" if name == data.name else "code"))
        except Unread:
            continue
    return found


def letters(data: Microdata) -> List[str]:
    """Records that letters of two bytes make longer than those without: what follows in them is
    read too far to the left."""
    plain = Counter(len(it.raw) for it in data.records if it.raw.isascii())
    usual = plain.most_common(1)[0][0] if plain else None
    longer = []
    for it in data.records:
        if usual is None or it.raw[:data.names.needed()].isascii():
            continue
        try:
            more = len(it.raw) - len(it.raw.decode("utf-8"))
        except UnicodeDecodeError:
            continue
        if more and len(it.raw) == usual + more:
            longer.append(it)
    if not longer or usual is None:
        return []
    return [
        "%s, line %d and %d more: letters of two bytes make these records longer than the "
        "others (%d bytes), so fields after them are read short. iconv -f UTF-8 -t ISO-8859-1 "
        "OLD > NEW" % (shown_name(data.name), longer[0].line, len(longer) - 1, usual)
    ]


def counted(data: Microdata, variable: Variable) -> Dict[bytes, Tuple[int, Record]]:
    """For each code of records how often it is there, and its first record."""
    found: Dict[bytes, Tuple[int, Record]] = {}
    for it in data.rows():
        code = variable.field(it.raw).strip(BLANKS)
        many, first = found.get(code, (0, it))
        found[code] = (many + 1, first)
    return found


def known(variable: Variable) -> List[bytes]:
    """The codes of a variable's list; none where it can't be read."""
    name = variable.says("CODELIST")
    try:
        return code_list(name) if name is not None else []
    except Unread:
        return []


def cut_codes(data: Microdata) -> List[str]:
    """Codes that with the byte before or behind their field are another code: a column that is a
    byte off."""
    said = []
    for variable in data.names.spanning:
        if kind_of(variable) != "flat" or not variable.is_clear():
            continue
        found = counted(data, variable)
        there = set(found) | set(known(variable))
        for code, (many, record) in sorted(found.items()):
            start, end = (variable.first or 1) - 1, variable.last()
            before, behind = record.raw[start - 1:start] if start else b"", record.raw[end:end + 1]
            whole = next(
                (it for it in (before + code, code + behind)
                 if it != code and it in there and found.get(it, (many, record))[0] >= many), None)
            if len(code) > 1 and whole is not None and not record.raw[start:end].strip(
                    BLANKS) == record.raw[start:end]:
                said.append("%s, line %d: %s, %s, has the code %s (%d record%s), and with the byte "
                            "beside it %s, another code: is the column a byte off there?" %
                            (shown_name(data.name), record.line, shown_name(
                                variable.name), bytes_range(start + 1, end), shown(code), many,
                             "" if many == 1 else "s", shown(whole)))
                break
    return said


def cut_ranges(data: Microdata) -> List[str]:
    """Codes that are ranges, as 0-249, with a digit of no field before them: their column begins
    earlier."""
    for variable in data.names.spanning:
        start, end = (variable.first or 1) - 1, variable.last()
        if not start or not variable.is_clear() or any(
            (it.first or 1) <= start <= it.last()
                for it in data.metadata.variables if it.is_clear()):
            continue
        odd = [
            it for it in data.rows() if it.raw[start - 1:start].isdigit() and re.fullmatch(
                rb"[0-9]*-[0-9]+",
                variable.field(it.raw).strip(BLANKS)) and it.raw[end - 1:end] in (b" ", b"\t")
        ]
        if odd:
            return [
                "%s, line %d%s: %s has the code %s, and before it, at byte %d, is the digit %s "
                "of no field: is the code %s?" %
                (shown_name(data.name), odd[0].line, " and %d more" %
                 (len(odd) - 1) if len(odd) > 1 else "", shown_name(
                     variable.name), shown(variable.field(odd[0].raw).strip(BLANKS)), start,
                 odd[0].raw[start - 1:start].decode("latin-1"),
                 shown(odd[0].raw[start - 1:end].strip(BLANKS)))
            ]
    return []


def cut_numbers(data: Microdata) -> List[str]:
    """A response that ends with a blank, while the byte before its field is a digit of no field:
    its column begins earlier."""
    variable = data.names.response
    if variable is None or not variable.is_clear() or (variable.first or 1) < 2:
        return []
    start, end = (variable.first or 1) - 1, variable.last()
    fields = [it for it in data.metadata.variables if it.is_clear()]
    if any((it.first or 1) <= start <= it.last() for it in fields):
        return []
    odd = [
        it for it in data.rows() if it.raw[start - 1:start].isdigit()
        and it.raw[start:start + 1].isdigit() and it.raw[end - 1:end] in (b" ", b"\t")
    ]
    if not odd:
        return []
    return [
        "%s, line %d%s: byte %d, before %s, is a digit of no field, and the field ends with a "
        "blank: does the number begin there?" %
        (shown_name(data.name), odd[0].line, " and %d more" %
         (len(odd) - 1) if len(odd) > 1 else "", start, shown_name(variable.name))
    ]


def far(data: Microdata) -> List[str]:
    """A value that is a thousand times the next largest."""
    variable = data.names.response
    if variable is None:
        return []
    first: Optional[Tuple[int, Record]] = None
    second = 0
    for it in data.rows():
        value = units_of(variable.field(it.raw).strip(BLANKS), variable.decimals()) or 0
        if first is None or value > first[0]:
            first, second = (value, it), first[0] if first else 0
        else:
            second = max(second, value)
    if first is None or second < 1 or first[0] < FAR * second or is_skipped(first[1].raw, variable):
        return []
    return [
        "%s, line %d: %s is %s, %s times the next largest value: is it in another unit?" %
        (shown_name(data.name), first[1].line, shown_name(variable.name),
         shown(variable.field(first[1].raw).strip(BLANKS)), grouped(first[0] // second))
    ]


def total(data: Microdata) -> List[str]:
    """A value that is that of all other records together: a total that was left among them."""
    variable = data.names.response
    if variable is None:
        return []
    values = [(units_of(variable.field(it.raw).strip(BLANKS), variable.decimals()) or 0, it)
              for it in data.rows()]
    whole = sum(value for value, _ in values)
    odd = next((it for value, it in values if value and 2 * value == whole), None)
    if odd is None or sum(1 for value, _ in values if value) < 3:
        return []
    return [
        "%s, line %d: %s is %s, as much as all other records together: is it a total that was left "
        "in the data?" % (shown_name(data.name), odd.line, shown_name(
            variable.name), shown(variable.field(odd.raw).strip(BLANKS)))
    ]


# What an office may have meant by keywords that argus passes over.
PASSED_OVER = {
    "HOLDING": "so each record counts as a contributor of its own, several of one enterprise as "
               "several",
    "REQUEST": "so no cell is protected because a respondent asked for it; u lines of an a priori "
               "file declare cells unsafe",
}


def passed_over(data: Microdata) -> List[str]:
    """Lines of the metadata that say whose records they are, or who asked for protection: argus
    passes them over."""
    return [
        "%s: <%s> is passed over, %s." %
        (data.metadata.place(line.number), line.keyword, PASSED_OVER[line.keyword])
        for line in data.metadata.lines if line.keyword in PASSED_OVER
    ]


def indented(data: Microdata) -> List[str]:
    """A hierarchy file with blanks before codes: they are no lead, so these codes are right below
    the total."""
    said = []
    for variable in data.names.spanning:
        name = variable.says("HIERCODELIST")
        try:
            lines = lines_of(content(name)) if name is not None else []
        except Unread:
            continue
        odd = [k + 1 for k, it in enumerate(lines) if it[:1] in (b" ", b"\t") and it.strip(BLANKS)]
        if odd and name is not None:
            said.append(
                "%s, line %d%s: blanks before a code are no lead (that is %s), so it is right "
                "below the total: is it meant to be below the line above?" %
                (shown_name(name), odd[0], " and %d more" %
                 (len(odd) - 1) if len(odd) > 1 else "", shown(variable.lead())))
    return said
