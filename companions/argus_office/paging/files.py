"""What a page takes of a job and its metadata, as texts. argus has read them first and judged
them."""

import os
import re
from typing import Callable, Dict, List, Optional, Tuple, TypeVar

from argus_office.reading import files, job, metadata
from argus_office.reading.arguments import Rule
from argus_office.reading.files import Unread, bytes_of, text_of
from argus_office.reading.trees import labelled_codes, tree_of

Read = TypeVar("Read")


# The commands without which there is nothing to show.
NAMED = ("SPECIFYTABLE", "OPENMETADATA", "SUPPRESS", "CERTIFICATE", "WRITETABLE")


class Stop(Exception):
    """What can't be read, in one line."""


class Refused(Stop):
    """Why no public page is made, in one line: argus doesn't accept the release."""


def read(reader: Callable[[], Read]) -> Read:
    """What a reader gives. Raises Stop where it can't read a file."""
    try:
        return reader()
    except Unread as fault:
        raise Stop(fault.line()) from fault


def content(name: bytes) -> bytes:
    """The bytes of a file of any size. Raises Stop."""
    return read(lambda: files.content(name, None))


def text_in(name: str) -> str:
    """A file's text; bytes that are no text stay as surrogates. Raises Stop."""
    return text_of(content(os.fsencode(name)))


class Job:
    """What a page takes of a job. Raises Stop where a table or a file of it is lacking."""

    def __init__(self, name: str) -> None:
        self.name = name
        self.source = read(lambda: job.Job(os.fsencode(name)))
        self.tables = [
            ([text_of(it) for it in table.variables], text_of(table.response))
            for _, table in self.source.tables()]
        self.outputs = {it.table: text_of(it.file) for _, it in self.source.outputs()}
        self.rules = self.argument("SAFETYRULE").split("|")
        self.method = self.argument("SUPPRESS")
        rounding = re.fullmatch(r"RND\(([0-9]+)\)", self.method)
        self.base = int(rounding[1].lstrip("0")[:20] or "0") if rounding else None
        said = [self.source.of(it) for it in NAMED]
        if not all(said):
            raise self.lacking()
        if all(value is not None for each in said for _, value in each):
            self.check()

    def stated(self, word: str) -> List[Tuple[str, Rule]]:
        """The job's rules of a name: as the job has them, and with their numbers."""
        return [
            (text, rule) for text, rule in zip(self.rules, self.source.rules())
            if rule.word == word]

    def argument(self, command: str) -> str:
        """What stands behind a command, without blanks and in capital letters."""
        return re.sub(r"\s", "", text_of(self.source.argument(command) or b"").upper())

    def check(self) -> None:
        """Raises Stop where a table can't be made out, or its file; argus has told of other faults
        before."""
        is_whole = len(self.tables) == len(self.source.of("SPECIFYTABLE"))
        if not is_whole or any(it not in self.outputs for it in range(1, len(self.tables) + 1)):
            raise self.lacking()

    def lacking(self) -> Stop:
        """The fault that something is lacking."""
        return Stop("%s isn't a whole job: see what argus says to it" % self.name)

    def file(self, command: str) -> bytes:
        """The file that a command names. Raises Stop where it names none."""
        found = self.source.file(command)
        if found is None:
            raise self.lacking()
        return found

    def metadata(self) -> bytes:
        """The file of the metadata."""
        return self.file("OPENMETADATA")

    def microdata(self) -> bytes:
        """The file of the microdata."""
        return self.file("OPENMICRODATA")

    def certificate(self) -> bytes:
        """The file of the certificate."""
        return self.file("CERTIFICATE")

    def levels_of(self, table: int) -> Dict[str, int]:
        """The last level that a table, from 1, shows of each variable for which the job says
        one."""
        depths = [it for _, it in self.source.depths() if it.table == table]
        return {text_of(it.variable): it.level for it in depths}

    def is_weighted(self) -> bool:
        """Whether the values are weighted."""
        return self.source.is_weighted()

    def used(self) -> List[str]:
        """The files that the job reads or puts: the page may take the name of none."""
        return [self.name, *map(text_of, job.inputs(self.source) + job.outputs(self.source))]


class Metadata:
    """What a page takes of the metadata: its variables in order, by their names."""

    def __init__(self, name: bytes) -> None:
        self.source = read(lambda: metadata.Metadata(name))
        self.variables: Dict[str, metadata.Variable] = {}
        for it in self.source.variables:
            self.variables.setdefault(text_of(it.name), it)

    def decimals(self, variable: str) -> int:
        """How many decimals the values of a variable have."""
        return self.variables[variable].decimals() if variable in self.variables else 0

    def weight(self) -> Optional[str]:
        """The variable of the weights, if there is one."""
        found = self.source.weight()
        return text_of(found.name) if found else None

    def labels(self, variable: str) -> Dict[str, str]:
        """The labels of a code list, by code, for those who look at the page; argus reads none."""
        found: Dict[str, str] = {}
        name = self.variables[variable].says("CODELIST") if variable in self.variables else None
        if name is None:
            return found
        listed = name
        for code, label in read(lambda: labelled_codes(listed)):
            if label:
                found.setdefault(text_of(code), text_of(label))
        return found

    def files(self) -> List[str]:
        """The files that the metadata name."""
        return [text_of(name) for it in self.source.variables for name in it.files()]

    def parents(self, variable: str, codes: List[str]) -> Dict[str, Optional[str]]:
        """The parent of each code; the first code is the total, which has none. Codes of no
        hierarchy stand below the total."""
        total, there = codes[0], set(codes[1:])
        found: Dict[str, Optional[str]] = {code: total for code in codes}
        found[total] = None
        if variable not in self.variables:
            return found
        wanted = set(map(bytes_of, there))
        tree = read(lambda: tree_of(self.variables[variable], wanted))
        for code in there:
            at = tree.at.get(bytes_of(code), 0)
            above = [text_of(tree.codes[it]) for it in tree.up(at)[1:] if it]
            found[code] = next((it for it in above if it in there), total)
        return found
