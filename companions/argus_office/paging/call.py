"""The call of `page`: its words, the file that it writes, and its status."""

import os
import re
import sys
from typing import List, Optional

from argus_office.paging.files import Job, Metadata, Refused, Stop
from argus_office.paging.method import method_text, template_in
from argus_office.paging.release import Release
from argus_office.paging.texts import visible
from argus_office.paging.titles import Title, title_of
from argus_office.paging.whole import MARK, MARK_OF_PUBLIC, Page

USAGE = (
    "usage: argus page JOB [FILE.html] [--public [--unchecked]] [--title TEXT] [--argus PROGRAM]\n"
    "       argus page JOB --method [--template FILE] [--argus PROGRAM]\n"
    "       argus page --method")
# What a public page's name ends in, where none is given.
PUBLIC_END = ".public.html"


class Call:
    """The words of a call."""

    def __init__(self) -> None:
        self.names: List[str] = []
        self.is_public = self.is_unchecked = self.is_method = False
        self.template: Optional[str] = None
        self.title = Title()
        self.program: Optional[str] = None

    def out(self) -> str:
        """The name of the page: as given, or that of the job."""
        if len(self.names) > 1:
            return self.names[1]
        return re.sub(r"\.job$", "", self.names[0]) + (PUBLIC_END if self.is_public else ".html")

    def is_whole(self) -> bool:
        """Whether the words fit together."""
        if not self.is_method:
            return bool(self.names) and self.template is None and (
                self.is_public or not self.is_unchecked)
        is_page = self.is_public or self.is_unchecked or self.title != Title()
        return not is_page and len(self.names) <= 1 and (bool(self.names) or not self.template)


def call_of(given: List[str]) -> Optional[Call]:
    """The call that the words are, or None where they are none."""
    call, words = Call(), list(given)
    while words:
        word = words.pop(0)
        if word == "--public":
            call.is_public = True
        elif word == "--unchecked":
            call.is_unchecked = True
        elif word == "--method":
            call.is_method = True
        elif word == "--template" and words:
            call.template = words.pop(0)
        elif word == "--title" and words:
            title = title_of(words.pop(0))
            if title is None:
                return None
            call.title = title
        elif word == "--argus" and words:
            call.program = os.path.abspath(words.pop(0))
        elif word.startswith("--") or len(call.names) == 2:
            return None
        else:
            call.names.append(word)
    return call if call.is_whole() else None


def stop_on_taken(out: str, call: Call) -> None:
    """Refuses a name that would overwrite anything but an earlier page of the same kind, and the
    name of a public page for another."""
    job = Job(call.names[0])
    used = job.used() + Metadata(job.metadata()).files()
    if os.path.realpath(out) in {os.path.realpath(it) for it in used}:
        raise Stop("%s is a file of the job: give the page another name" % out)
    if not call.is_public and out.endswith(PUBLIC_END):
        raise Stop(
            "%s is the name of a public page, and this one isn't for publication: give it another "
            "name" % out)
    if not os.path.lexists(out):
        return
    mine, other = (MARK_OF_PUBLIC, MARK) if call.is_public else (MARK, MARK_OF_PUBLIC)
    head = head_of(out)
    if head.startswith(other.encode("ascii")):
        kind = "that isn't for publication" if call.is_public else "for publication"
        raise Stop(
            "%s is there and is a page %s: give this page another name, or take that one away"
            % (out, kind))
    if not head.startswith(mine.encode("ascii")):
        raise Stop(
            "%s is there and isn't a page: give the page another name, or take it away" % out)


def head_of(name: str) -> bytes:
    """The first bytes of a file. Raises Stop where it can't be read."""
    try:
        with open(name, "rb") as file:
            return file.read(200)
    except OSError as fault:
        raise Stop("%s: %s" % (name, fault.strerror)) from fault


def put(out: str, text: str) -> None:
    """Writes the page beside its place, and then puts it there whole."""
    part = "%s.%d.part" % (out, os.getpid())
    try:
        with open(part, "x", encoding="utf-8", newline="\n") as file:
            try:
                file.write(text)
                file.flush()
                os.replace(part, out)
            except (OSError, ValueError):
                os.unlink(part)
                raise
    except OSError as fault:
        raise Stop("%s: %s" % (out, fault.strerror)) from fault


def made(call: Call) -> Release:
    """Writes the page of a call, and gives the release that it shows."""
    stop_on_taken(call.out(), call)
    release = Release(call.names[0], call.is_public, call.program, not call.is_unchecked)
    put(call.out(), Page(release, call.title).html())
    return release


def print_method(call: Call) -> None:
    """Prints the method text of a release that argus accepts, or without a job the template of
    it."""
    if not call.names:
        print(template_in(None), end="")
        return
    release = Release(call.names[0], False, call.program)
    if not release.is_accepted:
        raise Refused("no method text, since argus check %s says: %s" % (
            call.names[0], release.accepted))
    print(method_text(release, call.template), end="")


def tell(text: str, is_fault: bool = True) -> None:
    """Says a line: a fault or a note, or the name of the page."""
    print("page: %s" % visible(text), file=sys.stderr if is_fault else sys.stdout)


def main(words: List[str]) -> int:
    """Writes the page that the words ask for, and gives the status."""
    call = call_of(words)
    if call is None:
        print(USAGE, file=sys.stderr)
        return 1
    try:
        if call.is_method:
            print_method(call)
            return 0
        release = made(call)
    except Refused as fault:
        tell(str(fault))
        return 3
    except Stop as fault:
        tell(str(fault))
        return 2
    # Files that argus hasn't judged (--unchecked), or doesn't accept, can be wrong in any way.
    except Exception as fault:  # pylint: disable=broad-except
        tell(
            "the job, the metadata and the tables don't fit together (%s): see what argus check "
            "says" % type(fault).__name__)
        return 2
    for note in release.notes:
        tell(note)
    tell(call.out(), False)
    if not release.is_public and not release.is_accepted:
        tell(release.accepted)
        return 3
    return 0
