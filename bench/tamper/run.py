#!/usr/bin/env python3
"""Alters a release byte by byte, and says whether `argus check` accepts any of the altered ones.

usage: run.py PROGRAM

In a copy of `examples/protected` it runs the job and checks what was put. Then it cuts the certificate at every byte, and raises each byte of
the certificate and of the table by one: no such release may be accepted. Its status is 1 where one is. It stands outside `rt ci`.
"""

import os
import shutil
import subprocess
import sys
import tempfile

HERE = os.path.dirname(os.path.abspath(__file__))
EXAMPLE = os.path.join(HERE, "..", "..", "examples", "protected")


def said(program, folder, verb):
    done = subprocess.run([program, verb, "turnover.job"], cwd=folder, capture_output=True, text=True, check=False)
    return done.stdout.strip()


def altered(whole):
    """Each text with one byte raised by one."""
    for place, byte in enumerate(whole):
        yield whole[:place] + bytes([(byte + 1) % 256]) + whole[place + 1 :]


def main():
    program = os.path.abspath(sys.argv[1])
    accepted = 0
    with tempfile.TemporaryDirectory() as room:
        folder = os.path.join(room, "job")
        shutil.copytree(EXAMPLE, folder)
        print(said(program, folder, "run"), said(program, folder, "check"), sep="; ")
        for name in ("turnover.cert", "turnover.csv"):
            path = os.path.join(folder, name)
            with open(path, "rb") as source:
                whole = source.read()
            cut = [whole[:end] for end in range(len(whole))] if name.endswith("cert") else []
            kinds = {}
            for text in cut + list(altered(whole)):
                with open(path, "wb") as out:
                    out.write(text)
                answer = said(program, folder, "check")
                accepted += answer == "accepted"
                kind = " ".join(word for word in answer.split() if not word.strip(":").isdigit())
                kinds[kind] = kinds.get(kind, 0) + 1
            with open(path, "wb") as out:
                out.write(whole)
            print("%s: %d cut, %d raised" % (name, len(cut), len(whole)))
            for kind in sorted(kinds):
                print("  %4d %s" % (kinds[kind], kind))
    print("%d accepted" % accepted)
    return 1 if accepted else 0


sys.exit(main())
