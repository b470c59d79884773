"""What is said of a file as a whole: one that is absent, and one that is no plain text."""

import difflib
import os
from typing import List, Optional, Tuple

from argus_office.reading.files import MARK, listed, shown_name
from argus_office.reading.words import same_but_case


def others_named(name: bytes) -> Tuple[Optional[bytes], List[bytes]]:
    """For a file that is absent: one in its folder whose name differs in case alone or is much like
    it, and what is in the folder."""
    folder, _, last = name.rpartition(b"/")
    try:
        there = sorted(it for it in os.listdir(folder +
                                               b"/" if folder or name.startswith(b"/") else b".")
                       if not it.startswith(b"."))
    except (OSError, ValueError):
        return None, []
    like = same_but_case(last, there) or next(
        (it for it in there if it.strip() == last.strip()), None)
    if like is None:
        known = {it.decode("latin-1"): it for it in there}
        close = difflib.get_close_matches(last.decode("latin-1"), list(known), 1, 0.75)
        like = known[close[0]] if close else None
    return like, there


def absent(name: bytes, kind: str, job: bytes = b"") -> List[str]:
    """What to say of a file that isn't there: its folder, files of nearly the same name, and one
    beside the job."""
    beside = job.rpartition(b"/")[0]
    if beside and os.path.exists(beside + b"/" + name):
        return [
            "It is in %s, beside the job. Names are looked up from the folder in which argus "
            "is called: call it in %s." % (shown_name(beside), shown_name(beside))
        ]
    folder = name.rpartition(b"/")[0]
    like, there = others_named(name)
    if folder and not os.path.isdir(folder):
        return ["There is no folder %s, and argus makes none." % shown_name(folder)]
    where = "in %s" % shown_name(folder) if folder else "in this folder (%s)" % shown_name(
        os.fsencode(os.getcwd()))
    if os.path.exists(name):
        return ["It is there now; it wasn't when argus looked, or argus worked in another folder."]
    if like is not None:
        differs = "large and small letters differ." if like.lower() == name.rpartition(
            b"/")[2].lower() else "is that the one?"
        return [
            "There is no such file %s, but there is %s: %s" % (where, shown_name(like), differs)
        ]
    ends = [it for it in there if kind and it.lower().endswith(kind.encode())] or there
    named = listed([shown_name(it) for it in ends], 6) if ends else "nothing"
    return [
        "There is no such file %s; there is %s." % (where, named),
        "Names in a job and in metadata are looked up from the folder in which argus is called."
    ]


def foreign(data: bytes) -> Optional[str]:
    """What is wrong with a file as a whole, if it isn't plain text: UTF-16, a mark in front, CR
    alone as the line end."""
    if data[:2] in (b"\xff\xfe", b"\xfe\xff") or (len(data) > 3 and
                                                  data[:200].count(b"\0") * 3 > len(data[:200])):
        return ("The file is in UTF-16, which argus can't read. Save it as UTF-8 without a "
                "byte-order mark, or as Latin-1.")
    if data.startswith(MARK):
        return ("The file begins with a byte-order mark (bytes ef bb bf), which is part of its "
                "first line to argus. Take it out: tail -c +4 OLD > NEW.")
    if b"\n" not in data and data.count(b"\r") > 1:
        return ("Its lines end with CR alone, so that to argus it is one line. Save it with LF, or "
                "CR and LF.")
    return None
