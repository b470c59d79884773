#!/usr/bin/env python3
"""Prints the file of the promise into docs/MODEL.md, section by section, in place of what stands there.

usage: bench/docs/promise.py

The file is crates/job_run/specs/Promise.antt. Its sections begin with lines `-- ---- NAME`; in MODEL each has a heading and a block, from
the heading of the first section up to `### What it quotes`. The lines of `use` are left out.
"""

from __future__ import annotations

import pathlib
import re
import sys
from typing import List, Tuple

TOP = pathlib.Path(__file__).resolve().parent.parent.parent
PROMISE = TOP / "crates/job_run/specs/Promise.antt"
MODEL = TOP / "docs/MODEL.md"
BEFORE = "<!-- the sections of job_run/specs/Promise, by bench/docs/promise.py -->\n"
BEHIND = "### What it quotes\n"


def sections(text: str) -> List[Tuple[str, str]]:
    """The sections of the file: each with its name and its text."""
    parts = re.split(r"^-- ---- (.*)\n", text, flags=re.M)
    return [(name, body.strip("\n")) for name, body in zip(parts[1::2], parts[2::2])]


def printed(text: str) -> str:
    """The sections as MODEL has them."""
    blocks = [f"### {name[0].upper()}{name[1:]}\n\n```\n{body}\n```\n" for name, body in sections(text)]
    return "\n".join(blocks)


def main(words: List[str]) -> int:
    if words:
        print("usage: bench/docs/promise.py", file=sys.stderr)
        return 1
    model = MODEL.read_text(encoding="utf-8")
    start = model.index(BEFORE) + len(BEFORE)
    end = model.index(BEHIND)
    MODEL.write_text(model[:start] + "\n" + printed(PROMISE.read_text(encoding="utf-8")) + "\n" + model[end:], encoding="utf-8")
    return 0


if __name__ == "__main__":
    sys.exit(main(sys.argv[1:]))
