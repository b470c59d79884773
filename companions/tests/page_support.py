"""What the tests of `argus page` have in common: releases to show, calls of page, and a reader of
the page that shares nothing with what writes it."""

import contextlib
import html.parser
import io
import json
import os
import sys
from typing import Any, Dict, List, Optional, Tuple

from support import TOP, Answer, ask, example, put

from argus_office.paging import call
from argus_office.paging.release import Release

sys.path.insert(0, os.path.join(TOP, "bench", "depths"))
import large  # noqa: E402

EXAMPLES = ("first", "trade", "linked", "stated", "manual", "protected", "rounded")
MARKS = "<script>window.ran=1</script>"
JOB = (
    '<OPENMICRODATA> "%(name)s.asc"\n<OPENMETADATA> "%(name)s.rda"\n<SPECIFYTABLE> %(spans)s\n'
    '<SAFETYRULE> %(rules)s\n<SUPPRESS> MOD()\n<WRITETABLE> (1,"%(out)s")\n'
    '<CERTIFICATE> "%(name)s.cert"\n')
# Names that are marks of HTML, and control characters among them.
ODD = {
    "odd.job": JOB % {
        "name": "odd", "spans": '"%s""<i>B</i>"|"<b>V</b>"' % MARKS, "rules": "FREQ(3,30)",
        "out": "odd<img src=x onerror=ran=1>.csv"},
    "odd.rda": '"%s" 1 40\n<RECODEABLE>\n<CODELIST> "odd.cdl"\n"<i>B</i>" 41 10\n<RECODEABLE>\n'
               '<TOTCODE> "&amp;"\n"<b>V</b>" 51 4\n<NUMERIC>\n' % MARKS,
    "odd.cdl": '%s,%s</script>\n"a,b",x\n' % (MARKS, MARKS),
    "odd.asc": "".join(
        "%-40s%-10s%4d\n" % it for it in
        [(MARKS, '"><u>', 10)] * 2 + [(MARKS, "'&lt;", 12)] * 4
        + [('</script>,"\x01', '"><u>', 9)] * 4 + [('</script>,"\x01', "'&lt;", 7)] * 4),
}


def drawn(state: int, count: int) -> List[int]:
    """So many numbers, always the same."""
    found = []
    for _ in range(count):
        state = (state * 6364136223846793005 + 1442695040888963407) % 2**64
        found.append(state >> 33)
    return found


def three() -> Dict[str, str]:
    """A survey over three variables, whose table has a sheet for each code of one of them."""
    lines = [
        "%s%s%s%4d\n" % ("abcd"[k % 4], "ABC"[k // 4 % 3], "xyz"[k // 12 % 3], 1 + k // 36 % 900)
        for k in drawn(7, 160)]
    rda = "U 1 1\n<RECODEABLE>\nV 2 1\n<RECODEABLE>\nW 3 1\n<RECODEABLE>\nN 4 4\n<NUMERIC>\n"
    job = JOB % {"name": "three", "spans": '"U""V""W"|"N"', "rules": "FREQ(4,30)|NK(1,60)",
                 "out": "three.csv"}
    return {"three.job": job, "three.rda": rda + "<DECIMALS> 1\n", "three.asc": "".join(lines)}


def wide() -> Dict[str, str]:
    """A table of 31 columns, with values of eight digits and a total of twelve: 153 631 709 760."""
    lines = [
        "%02d%02d%09d\n" % (row, column, 80000000 + 1000 * row + column)
        for row in range(1, 33) for column in range(1, 31) for _ in range(2)]
    rda = ('R 1 2\n<RECODEABLE>\nC 3 2\n<RECODEABLE>\n<CODELIST> "wide.cdl"\nV 5 9\n<NUMERIC>\n')
    labels = "".join("%02d,Manufacture of product %d\n" % (k, k) for k in range(1, 31))
    job = JOB % {"name": "wide", "spans": '"R""C"|"V"', "rules": "FREQ(2,30)", "out": "wide.csv"}
    return {"wide.job": job, "wide.rda": rda, "wide.cdl": labels, "wide.asc": "".join(lines)}


def deep() -> Dict[str, str]:
    """Tables that show one classification down to several levels; none has its lowest codes."""
    lines = []
    for k in drawn(5, 240):
        place, part = ("n1", "n2", "s1", "s2", "s3")[k // 18 % 5], "ab"[k // 90 % 2]
        lines.append("%d%d%d%s%s%4d\n" % (
            1 + k % 3, 1 + k // 3 % 3, 1 + k // 9 % 2, place, part, 1 + k // 180 % 900))
    job = (
        '<OPENMICRODATA> "deep.asc"\n<OPENMETADATA> "deep.rda"\n<SPECIFYTABLE> "U""W"|"N"\n'
        '<SPECIFYTABLE> "U""R"|"N"\n<SPECIFYTABLE> "R"|"N"\n<depth> ( 02 ,"U", 1 )\n'
        '<SAFETYRULE> FREQ(4,30)|NK(1,60)\n<SUPPRESS> MOD()\n<WRITETABLE> (1,"class.csv")\n'
        '<WRITETABLE> (2,"place.csv")\n<WRITETABLE> (3,"land.csv")\n<CERTIFICATE> "deep.cert"\n'
        '<DEPTH> (1,"U",2)\n<DEPTH> (3,"R",1)\n')
    rda = (
        "U 1 3\n<HIERARCHICAL>\n<HIERLEVELS> 1 1 1\nR 4 2\n<HIERARCHICAL>\n"
        '<HIERCODELIST> "deep.hrc"\nW 6 1\n<RECODEABLE>\nN 7 4\n<NUMERIC>\n')
    return {"deep.job": job, "deep.rda": rda, "deep.hrc": "n\n@n1\n@n2\ns\n@s1\n@s2\n@s3\n",
            "deep.asc": "".join(lines)}


MADE = {"three": three, "wide": wide, "deep": deep, "odd": lambda: ODD}


def release_of(name: str, is_run: bool = True) -> List[str]:
    """Makes a release in the current folder: an example's, or a made one's. Gives its jobs."""
    if name in MADE:
        for file, text in MADE[name]().items():
            put(file, text)
    elif name == "large":
        large.write(".", True)
    else:
        example(name)
    jobs = sorted(it for it in os.listdir(".") if it.endswith(".job"))
    for job in jobs if is_run else []:
        run(job)
    return jobs


def run(job: str) -> None:
    """Makes the release of a job."""
    done = ask("run", job)
    assert done.status == 0, done


class Kept:
    """The release that the last page was made of, so that argus isn't asked twice."""

    release: Release

    @classmethod
    def made(cls, *given: Any) -> Release:
        """Makes the release of a call, and keeps it."""
        cls.release = Release(*given)
        return cls.release


call.Release = Kept.made  # type: ignore[misc,assignment]
os.environ.update(ARGUS_BUILD="0", ARGUS_EXPLAIN="0")


def page(*words: str) -> Answer:
    """What page answers, within this process."""
    out, err = io.StringIO(), io.StringIO()
    with contextlib.redirect_stdout(out), contextlib.redirect_stderr(err):
        status = call.main(list(words))
    return Answer(status, out.getvalue(), err.getvalue())


def page_text(name: str) -> str:
    """The text of a page."""
    with open(name, encoding="utf-8") as file:
        return file.read()


VOID = {"meta", "input"}


class Marks(html.parser.HTMLParser):
    """A page as a parser of HTML takes it: its marks, closed or not, its tables and its texts."""

    def __init__(self, text: str) -> None:
        super().__init__(convert_charrefs=True)
        self.open: List[str] = []
        self.faults: List[str] = []
        self.ids: List[str] = []
        self.text: List[str] = []
        self.scripts: List[str] = []
        # For each table (a section), its cells in order: their classes and their texts.
        self.tables: List[List[Tuple[List[str], List[str]]]] = []
        self.feed(text)
        self.close()
        self.faults += ["%s isn't closed" % it for it in self.open]
        self.data: Dict[str, Any] = json.loads(self.scripts[0])
        self.shown = "".join(self.text)

    def handle_starttag(self, tag: str, attrs: List[Tuple[str, Optional[str]]]) -> None:
        given = dict(attrs)
        if tag not in VOID:
            self.open.append(tag)
        foreign = ("img", "iframe", "link", "object", "base", "form")
        if tag in foreign or "src" in given or any(it.startswith("on") for it in given):
            self.faults.append("a mark %s that isn't the page's" % tag)
        if "id" in given:
            self.ids.append(given["id"] or "")
        kinds = (given.get("class") or "").split()
        if tag == "section" and "table" in kinds:
            self.tables.append([])
        if tag == "td" and "data-table" not in given and self.tables and "section" in self.open:
            self.tables[-1].append((kinds, []))
        if tag == "script":
            self.scripts.append("")

    def handle_endtag(self, tag: str) -> None:
        if not self.open or self.open.pop() != tag:
            self.faults.append("%s is closed and wasn't open" % tag)

    def handle_data(self, data: str) -> None:
        last = self.open[-1] if self.open else ""
        if last == "script":
            self.scripts[-1] += data
        elif last not in ("style", "title"):
            self.text.append(data)
            if "td" in self.open and self.tables and self.tables[-1]:
                self.tables[-1][-1][1].append(data)


class Seen:
    """A page as its script takes it: each cell's number by its place, its name and its texts."""

    def __init__(self, text: str) -> None:
        self.marks = Marks(text)
        self.data = self.marks.data
        self.faults: List[str] = list(self.marks.faults)
        # By cell where it stands: the table, its classes and its text.
        self.at: Dict[int, List[Tuple[int, List[str], str]]] = {}
        self.names: Dict[int, str] = {}
        for table, cells in zip(self.data["places"]["tables"], self.marks.tables):
            self.place(table, cells)

    def place(self, table: Dict[str, Any], cells: List[Tuple[List[str], List[str]]]) -> None:
        """Numbers the cells of a table by their places, and names them."""
        runs, numbers = table["cells"], []
        for k in range(0, len(runs), 3):
            numbers += [runs[k] + n * runs[k + 1] for n in range(runs[k + 2])]
        if len(numbers) != len(cells):
            self.faults.append("table %d has %d cells" % (table["number"], len(cells)))
        names = names_of(table, self.data["places"]["variables"])
        for number, name, (kinds, texts) in zip(numbers, names, cells):
            self.at.setdefault(number, []).append((table["number"], kinds, "".join(texts)))
            if self.names.setdefault(number, name) != name:
                self.faults.append("cell %d has two names" % number)

    def hidden(self) -> List[int]:
        """The hidden cells."""
        return sorted(it for it, places in self.at.items() if "x" in places[0][1])

    def sentence(self, pieces: List[Any]) -> str:
        """A sentence as it is read: the names of cells, without those of the variables."""
        said = ""
        for it in pieces:
            if isinstance(it, list):
                said += self.sentence(it)
            else:
                said += "{%s}" % self.names[it] if isinstance(it, int) else it
        return said


def names_of(table: Dict[str, Any], variables: List[str]) -> List[str]:
    """The names of a table's cells as they stand on the page, with those of the variables."""
    codes, found = table["codes"], []
    order: List[Optional[int]] = [*table["others"], table["down"], table["across"]]
    loops = [(k, range(len(codes[k]))) for k in order if k is not None]
    places: List[Dict[int, int]] = [{}]
    for k, rows in loops:
        places = [{**it, k: at} for it in places for at in rows]
    for place in places:
        named = sorted((table["variables"][k], codes[k][at]) for k, at in place.items() if at)
        found.append(" · ".join("%s %s" % (variables[k], code) for k, code in named))
    return [it or "the total" for it in found]
