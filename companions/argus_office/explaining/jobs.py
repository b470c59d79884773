"""What is wrong with a line of a job that argus refused (docs/MANUAL.md, What is refused in a job).
"""

import re
from typing import List, Optional, Tuple

from argus_office.explaining.texts import absent, foreign
from argus_office.reading.arguments import COMMANDS, Depth, Output, Prior, Scanner, Table, Wrong
from argus_office.reading.files import BLANKS, Unread, bare, bytes_range, listed, shown_name
from argus_office.reading.job import Job, Line, names_of, value_of, written
from argus_office.reading.words import nearest, same_but_case

ELSEWHERE = ("OPENTABLEDATA", "READTABLE", "RECODE", "SEPARATOR", "SOLVER", "VERSIONINFO",
             "LOGBOOK", "COVERTABLES", "LINKED", "GOINTERACTIVE", "CLEAR")
MOST_TABLES, MOST_VARIABLES = 8, 8


def explain(job: Job, number: int, kind: str, words: List[str]) -> List[str]:
    """What to say of `refused: job line N: KIND`. WORDS are argus's own words where they are known.
    """
    if number == 0:
        return whole_job(job, kind, words)
    line = job.line(number)
    if line is None:
        return [
            "%s has only %d lines now; has it changed since argus read it?" %
            (shown_name(job.name), len(job.lines))
        ]
    said = {
        "BadLine": bad_line,
        "UnknownCommand": unknown_command,
        "BadValue": bad_value,
        "Twice": twice,
        "TooMany": too_many,
        "OtherResponse": other_response,
        "NoSuchTable": no_such_table,
        "NotInTable": not_in_table,
        "SameName": same_name,
        "NoSuchVariable": no_such_variable,
        "NotSpanning": not_spanning,
        "NotNumeric": not_numeric,
        "NoWeight": no_weight
    }.get(kind)
    lines = said(job, line) if said else []
    if not lines:
        lines = [
            head(job, line),
            "Nothing is wrong with this line as it stands now; has the job or its metadata "
            "changed since argus read it?"
        ]
    whole_file = foreign(job.data)
    return lines + [whole_file] if whole_file else lines


def head(job: Job, line: Line, at: int = -1, end: int = -1) -> str:
    """File, line, and the bytes at fault with the text there, or the whole line."""
    if at < 0:
        return "%s: %s" % (job.place(line.number), bare(line.raw))
    if at >= end:
        return "%s, at byte %d: %s" % (job.place(line.number), at + 1, bare(line.raw))
    return "%s, %s: %s" % (job.place(line.number), bytes_range(at + 1, end), bare(line.raw[at:end]))


def whole_job(job: Job, kind: str, words: List[str]) -> List[str]:
    """Faults of the job as a whole, at line 0: a command that is missing, or words for another
    method."""
    if kind.startswith("Missing"):
        command = kind.partition(" ")[2]
        form = COMMANDS[command][0] if command in COMMANDS else ""
        lines = ["%s: no line has <%s>. Add one, as %s" % (shown_name(job.name), command, form)]
        if command == "WRITETABLE":
            there = {it.table for _, it in job.outputs()}
            lacking = [k for k in range(1, len(job.tables()) + 1) if k not in there]
            lines = [
                "%s: table %s has no <WRITETABLE>. Add a line, as <WRITETABLE> "
                "(%d,\"table.csv\")" % (shown_name(job.name), listed(map(str, lacking)),
                                        (lacking or [1])[0])
            ]
        like = next((it for it in job.lines
                     if it.word is None and command.lower() in it.raw.decode("latin-1").lower()),
                    None)
        return lines + (["Line %d speaks of it: %s" %
                         (like.number, bare(like.raw))] if like else [])
    method = job.method()
    line = next((it for it, _ in job.of("SUPPRESS")), None)
    where = job.place(line.number) if line else shown_name(job.name)
    if method.word == "RND":
        return [
            "%s: the job rounds, RND(%d), and so hides no cell whose interval could be given." %
            (where, method.number),
            "Of a rounded release `argus audit JOB OUT` says what a reader can find "
            "out."
        ]
    return [
        "%s: the job hides cells and doesn't round; an audit is for jobs with RND(b) alone." %
        where, "Of a release with hidden cells `argus intervals JOB OUT` says what a reader "
        "can find out."
    ]


def bad_line(job: Job, line: Line) -> List[str]:
    """A line without a command between < and >."""
    if line.word is not None or line.is_passed_over():
        return []
    text = line.raw.strip(BLANKS)
    rule = ("A line of a job is a command between < and > with its argument, or a comment that "
            "begins with //.")
    if text.startswith((b"#", b"*", b"%", b";", b"'", b"REM", b"--")):
        return [head(job, line), "A comment begins with // here."]
    if text.startswith((b"<>", b"<")) and b">" not in text:
        return [head(job, line), "The > behind the command is missing."]
    if text.startswith(b"<"):
        return [head(job, line), "Between < and > the command is missing."]
    found = re.match(rb"([A-Za-z]+)", text)
    like = nearest(found[1].decode(), list(COMMANDS)) if found else None
    if like:
        return [head(job, line), "A command stands between < and >: %s" % COMMANDS[like][0]]
    return [head(job, line), rule
            ] + (["Put // in front of it if it is a comment."] if text[:1].isalpha() else [])


def unknown_command(job: Job, line: Line) -> List[str]:
    """A command that argus lacks, and one that is like it."""
    if line.word is None or line.word in COMMANDS:
        return []
    start = line.raw.find(b"<")
    first = head(job, line, start, line.at)
    if line.word.strip() in COMMANDS:
        return [first, "There may be no blanks between < and >: <%s>." % line.word.strip()]
    if line.word in ELSEWHERE:
        return [
            first,
            "tau-ARGUS has this command, and argus hasn't: delete the line (the manual, Coming "
            "from tau-ARGUS)."
        ]
    like = nearest(line.word, list(COMMANDS))
    return [
        first,
        "argus has no such command%s" % (": is <%s> meant?" % like if like else "."),
        "" if like else "The commands are %s." % ", ".join(COMMANDS)
    ]


def bad_value(job: Job, line: Line) -> List[str]:
    """What is wrong with the argument of a command, and where."""
    if line.word == "CONTRIBUTORS" and job.method().word == "RND" and value_of(line) is not None:
        return [
            head(job,
                 line), "The job rounds (RND), which hides nothing that a firm could work out.",
            "Delete the line, or take GH(n) or MOD()."
        ]
    if line.word not in COMMANDS:
        return []
    form, read = COMMANDS[line.word]
    try:
        read(Scanner(line.raw, line.at))
    except Wrong as wrong:
        return [head(job, line, wrong.at, wrong.end), wrong.why]
    return []


def twice(job: Job, line: Line) -> List[str]:
    """The earlier line with the same command."""
    mine = next((it for at, it in job.said if at is line), None)
    for other, value in job.said:
        if other.number >= line.number:
            break
        if other.word != line.word or subject(mine) != subject(value):
            continue
        of = " for table %d" % mine.table if isinstance(mine, (Prior, Output, Depth)) else ""
        of += " and %s" % shown_name(mine.variable) if isinstance(mine, Depth) else ""
        return [
            head(job, line),
            "Line %d has <%s>%s already: %s" % (other.number, line.word, of, bare(other.raw)),
            "Delete one of the two."
        ]
    return []


def subject(value: object) -> Tuple[object, ...]:
    """What a line is for, if its command may stand several times: a table; of DEPTH a table and a
    variable."""
    if isinstance(value, Depth):
        return value.table, value.variable
    return (value.table, ) if isinstance(value, (Prior, Output)) else ()


def too_many(job: Job, line: Line) -> List[str]:
    """More tables or variables than a job may have."""
    tables = [(at, it) for at, it in job.tables() if at.number <= line.number]
    if len(tables) > MOST_TABLES:
        return [head(job, line), "This is the ninth table; a job has 8 at most."]
    earlier = {name for at, it in tables for name in it.variables if at.number < line.number}
    new = [
        name for at, it in tables if at.number == line.number for name in it.variables
        if name not in earlier
    ]
    return [
        head(job, line),
        "The tables before have %d different variables, and this one brings %s; a job has 8 at "
        "most." % (len(earlier), listed(map(shown_name, new))),
        "Leave a table or a variable out. Two jobs in place of one can disclose (the "
        "manual, Never split tables that share cells)."
    ]


def other_response(job: Job, line: Line) -> List[str]:
    """A table of another response than the first."""
    tables = job.tables()
    mine = next((it for at, it in tables if at.number == line.number), None)
    if mine is None:
        return []
    return [
        head(job, line),
        "Its response is %s; that of the first table (line %d) is %s, and all tables of a job "
        "have one." %
        (shown_name(mine.response), tables[0][0].number, shown_name(tables[0][1].response)),
        "Make a job for each response, but not where one is a part of the other (the "
        "manual, Never split tables that share cells)."
    ]


def no_such_table(job: Job, line: Line) -> List[str]:
    """A line for a table that the job doesn't have."""
    mine = next((it for at, it in job.said if at.number == line.number), None)
    if not isinstance(mine, (Prior, Output, Depth)):
        return []
    many = len(job.tables())
    return [
        head(job, line),
        "It speaks of table %d; the job has %s. Tables count from 1, in the order of the "
        "SPECIFYTABLE lines." %
        (mine.table, "one table, which is 1" if many == 1 else "%d tables" % many)
    ]


def not_in_table(job: Job, line: Line) -> List[str]:
    """A line DEPTH whose variable its table doesn't span: a name like it, or the tables that it
    spans."""
    mine, tables = next((it for at, it in job.said if at.number == line.number), None), job.tables()
    if not isinstance(mine, Depth) or not 1 <= mine.table <= len(tables):
        return []
    at, there = tables[mine.table - 1]
    if mine.variable in there.variables:
        return []
    said = "Table %d (line %d) is spanned by %s, and not by %s" % (
        mine.table, at.number, listed(map(shown_name, there.variables)),
        shown_name(mine.variable) if mine.variable else "an empty name")
    like = same_but_case(mine.variable, there.variables)
    where = [str(k) for k, (_, it) in enumerate(tables, 1) if mine.variable in it.variables]
    if like is not None:
        said += ": large and small letters differ in %s" % shown_name(like)
    elif mine.variable == there.response:
        said += ", which is the response"
    elif mine.variable.strip(BLANKS) in there.variables:
        said += ": blanks inside the quotes count"
    near = nearest(mine.variable.decode("latin-1"),
                   [it.decode("latin-1")
                    for it in there.variables]) if like is None and not where else None
    said += ": is it %s?" % near if near and ":" not in said else "."
    spans = "It spans table%s %s." % ("s" if len(where) > 1 else "",
                                      listed(where)) if where else "It spans no table of the job."
    return [
        at_name(job, line, mine.variable), said,
        "%s A line DEPTH is for a variable of its own table: correct the number or the name, "
        "or delete the line." % spans
    ]


def read_by(job: Job) -> List[Tuple[str, bytes]]:
    """The files that the job reads, each with the place where it is named."""
    found = [("line %d" % line.number, it) for word in ("OPENMICRODATA", "OPENMETADATA")
             for line, it in job.of(word) if isinstance(it, bytes)]
    found += [("line %d" % line.number, it.file) for line, it in job.priors()]
    try:
        metadata = job.metadata()
    except Unread:
        return found
    for variable in names_of(job, metadata).spanning:
        for word in ("CODELIST", "HIERCODELIST"):
            name = variable.says(word)
            if name is not None:
                found.append((metadata.place(variable.keywords[word][0]), name))
    return found


def same_name(job: Job, line: Line) -> List[str]:
    """An output with the name of another file of the job."""
    name = next((it for at, it in written(job) if at.number == line.number), None)
    if name is None:
        return []
    other = next((at for at, it in written(job) if it == name and at.number != line.number), None)
    if other is not None:
        return [
            head(job, line),
            "Line %d writes the file %s too: %s" %
            (other.number, shown_name(name), bare(other.raw)), "Give one of them another name."
        ]
    where = next((where for where, it in read_by(job) if it == name), None)
    if where is None:
        return []
    return [
        head(job, line),
        "The job reads %s (%s), and would write over it. Give the output another name." %
        (shown_name(name), where)
    ]


def variables_at(job: Job, line: Line) -> Optional[Table]:
    """The table that a line specifies."""
    return next((it for at, it in job.tables() if at.number == line.number), None)


def at_name(job: Job, line: Line, name: bytes) -> str:
    """The line at fault, with a name in quotes."""
    at = line.raw.rfind(b'"' + name + b'"') if b"|" in line.raw and line.raw.rfind(
        b'"' + name + b'"') > line.raw.find(b"|") else line.raw.find(b'"' + name + b'"')
    return head(job, line, at, at + len(name) + 2) if at >= 0 else head(job, line)


def no_such_variable(job: Job, line: Line) -> List[str]:
    """The name that the metadata lack, and one that is like it."""
    table, metadata = variables_at(job, line), job.metadata()
    if table is None:
        return []
    name = next((it for it in table.variables + [table.response] if metadata.find(it) is None),
                None)
    if name is None:
        return []
    there = [it.name for it in metadata.variables]
    lines = [at_name(job, line, name)]
    like = same_but_case(name, there)
    marked = next((it for it in there if it == b"\xef\xbb\xbf" + name), None)
    if like is not None:
        lines.append("The metadata (%s) have %s: large and small letters differ." %
                     (shown_name(metadata.name), shown_name(like)))
    elif marked is None and name.strip(BLANKS) in there:
        lines.append("The metadata (%s) have the name without blanks at its ends." %
                     shown_name(metadata.name))
    else:
        near = nearest(name.decode("latin-1"), [it.decode("latin-1") for it in there])
        lines.append("No variable of the metadata (%s) has this name%s. They have %s." %
                     (shown_name(metadata.name), ": is it %s?" % near if near else "",
                      listed(map(shown_name, there), 12)))
    whole_file = foreign(metadata.data)
    return lines + (["%s: %s" % (shown_name(metadata.name), whole_file)] if whole_file else [])


def not_spanning(job: Job, line: Line) -> List[str]:
    """A number that is to span a table."""
    table, metadata = variables_at(job, line), job.metadata()
    variable = next((found for found in map(metadata.find, table.variables)
                     if found and found.is_number()), None) if table else None
    if variable is None:
        return []
    word = "NUMERIC" if "NUMERIC" in variable.keywords else "WEIGHT"
    return [
        at_name(job, line, variable.name),
        "%s is a number (%s: <%s>), and a number can't span a table." %
        (shown_name(variable.name), metadata.place(variable.keywords[word][0]), word),
        "Take a variable of classes; if its numbers are codes, delete <%s> there." % word
    ]


def not_numeric(job: Job, line: Line) -> List[str]:
    """A response that is no number."""
    table, metadata = variables_at(job, line), job.metadata()
    variable = metadata.find(table.response) if table else None
    if variable is None or variable.is_number():
        return []
    return [
        at_name(job, line, variable.name),
        "%s is added up here, but in the metadata it is a code (%s)." %
        (shown_name(variable.name), metadata.place(variable.line)),
        "Add the line <NUMERIC> below it, and <DECIMALS> if it has a point."
    ]


def no_weight(job: Job, line: Line) -> List[str]:
    """A weight that is wanted, and that the metadata lack."""
    metadata = job.metadata()
    if metadata.weight() is not None:
        return []
    at = line.raw.upper().find(b"WGT")
    return [
        head(job, line, at, at + 6) if at >= 0 else head(job, line),
        "WGT(1) wants a weight, and no variable of the metadata (%s) has <WEIGHT>." %
        shown_name(metadata.name), "Add <WEIGHT> below the weight's line there, or delete WGT(1)."
    ]


def absent_file(job: Job, command: str) -> List[str]:
    """What to say of a file of the job that is absent."""
    line, name = next(((at, it) for at, it in job.of(command) if isinstance(it, bytes)),
                      (None, None))
    if line is None or name is None:
        return ["%s has no line <%s>." % (shown_name(job.name), command)]
    return ["%s: %s" % (job.place(line.number), bare(line.raw))] + absent(
        name, name[name.rfind(b"."):].decode("latin-1") if b"." in name else "", job.name)
