"""Releases of argus, whole and damaged: examples, made jobs, stored cases, seals and long lines."""
import hashlib
import json
import os
import random
import re
import shutil
import subprocess
from typing import List, Optional

import long_lines
from made import Made, changed_number, damaged, first_version
from tries import CHECK, EXAMPLES, TOP, Tries, lay, new_folder, read, try_release, write

DAMAGED = (("protected", "turnover.job"), ("linked", "firms.job"), ("manual", "survey.job"),
           ("stated", "stated.job"), ("rounded", "turnover.job"), ("insider", "guarded.job"))


def try_long_lines(tries: Tries, room: str, count: int) -> None:
    """Long lines in each file of a job and its release: the same answer, and within a second of
    processor time.
    """
    folder = new_folder(room)
    lay(long_lines.FILES, folder)
    tries.argus(["run", "j.job"], folder)
    files = {name: read(folder, name) for name in sorted(map(os.fsdecode, os.listdir(folder)))}
    tries.slowest = 0.0
    for number, (name, data) in enumerate(long_lines.made(files, count)):
        write(folder, name, data)
        tries.compare("long line of %s, %d" % (name, number), folder, b"j.job")
        write(folder, name, files[name])
        if tries.slowest > 1:
            tries.differ += 1
            print("long line of %s, %d: answered after %.1f seconds" %
                  (name, number, tries.slowest))
            tries.slowest = 0.0


def try_seals(tries: Tries, room: str) -> None:
    """A release with its seal, and with one file after the other exchanged, taken away or left out
    of the seal.
    """
    folder = os.fsdecode(new_folder(room, os.path.join(EXAMPLES, "linked")))
    tries.argus(["run", "firms.job"], os.fsencode(folder))
    names = ("firms.job", "firms.asc", "firms.rda", "region.hrc", "industry.csv", "size.csv",
             "firms.cert")
    wholes = {name: read(os.fsencode(folder), name) for name in names}
    seal = {
        name: b"%s  %s\n" % (hashlib.sha256(data).hexdigest().encode(), name.encode())
        for name, data in wholes.items()
    }

    def expect(about: str, lines: Optional[List[bytes]], status: int, words: str) -> None:
        if lines is not None:
            write(os.fsencode(folder), "firms.seal", b"".join(lines))
        done = subprocess.run([CHECK, "firms.job"], cwd=folder, stdout=subprocess.PIPE)
        said = done.stdout.decode("utf-8").rstrip("\n").split("\n")[0 if status else -1]
        tries.tried += 1
        if (done.returncode, said) != (status, words):
            tries.differ += 1
            print("seal, %s: expected %d %r, the checker says %d %r" %
                  (about, status, words, done.returncode, said))

    subprocess.run([os.path.join(TOP, "argus"), "seal", "firms.job", "--argus", tries.program],
                   cwd=folder,
                   stdout=subprocess.DEVNULL)
    expect("as `seal` wrote it", None, 0, "sealed: 7 files are those that firms.seal names")
    whole = [b"# argus seal 1\n", b"# inputs\n"] + list(seal.values())
    expect("all files", whole, 0, "sealed: 7 files are those that firms.seal names")
    expect("no mark", whole[1:], 2, "can't be read: seal line 1: no line of a seal (BadLine)")
    expect("a sum that is none", whole + [b"abc  firms.asc\n"], 2,
           "can't be read: seal line 10: no line of a seal (BadLine)")
    other = hashlib.sha256(b"other").hexdigest().encode()
    for name in names:
        less = [line for line in whole if line != seal[name]]
        expect("without " + name, less, 3,
               "not accepted: the seal firms.seal has no %s (NotSealed)" % name)
        expect("another " + name, less + [b"%s  %s\n" % (other, name.encode())], 3,
               "not accepted: %s isn't the file that firms.seal names (OtherFile)" % name)


def try_examples(tries: Tries, room: str) -> None:
    """All jobs of the examples: what is stored beside them as a release, and what argus releases.
    """
    for name in sorted(os.listdir(EXAMPLES)):
        if not os.path.isdir(os.path.join(EXAMPLES, name)):
            continue
        stored, fresh = (new_folder(room, os.path.join(EXAMPLES, name)) for _ in range(2))
        for expected in sorted(os.listdir(os.fsdecode(stored))):
            if expected.endswith(".expected"):
                shutil.copy(os.path.join(os.fsdecode(stored), expected),
                            os.path.join(os.fsdecode(stored), expected[:-9]))
        for job in sorted(file for file in os.listdir(os.fsdecode(fresh)) if file.endswith(".job")):
            tries.compare("examples/%s/%s, stored" % (name, job), stored, job.encode())
            try_release(tries, "examples/%s/%s" % (name, job), fresh, job)


def try_altered(tries: Tries, room: str) -> None:
    """The release of one example, cut at every byte of its certificate, and with every byte of it
    and the table raised.
    """
    folder = new_folder(room, os.path.join(EXAMPLES, "protected"))
    tries.argus(["run", "turnover.job"], folder)
    for name in ("turnover.cert", "turnover.csv"):
        whole = read(folder, name)
        texts = [whole[:end] for end in range(len(whole))] if name.endswith("cert") else []
        texts += [
            whole[:place] + bytes([(byte + 1) % 256]) + whole[place + 1:]
            for place, byte in enumerate(whole)
        ]
        for number, text in enumerate(texts):
            write(folder, name, text)
            tries.compare("altered %s, %d" % (name, number), folder, b"turnover.job")
        write(folder, name, whole)


def try_damaged(tries: Tries, room: str, count: int) -> None:
    """Damages one file at a time, inputs as well as releases, of several examples."""
    draw = random.Random(1)
    for example, job in DAMAGED:
        folder = new_folder(room, os.path.join(EXAMPLES, example))
        tries.argus(["run", job], folder)
        names = sorted(name for name in os.listdir(os.fsdecode(folder))
                       if not re.search(r"expected$|txt$|\.job$|md$", name))
        for number in range(count // len(DAMAGED)):
            name = draw.choice(names + [job])
            whole = read(folder, name)
            write(folder, name, draw.choice((damaged, damaged, changed_number))(draw, whole))
            tries.compare("damaged %s of %s, %d" % (name, example, number), folder, job.encode())
            write(folder, name, whole)


def certificate_in(folder: bytes) -> bytes:
    """The certificate of a made job; nothing where a damage of the job gave it another name."""
    return read(folder, "c.cert") if os.path.isfile(os.path.join(folder, b"c.cert")) else b""


def try_made(tries: Tries, room: str, first: int, count: int) -> None:
    """Made jobs, as argus released them, and each once more with one number or byte of a file
    changed.
    """
    for seed in range(first, first + count):
        made, folder = Made(seed), new_folder(room)
        lay(made.files, folder)
        said = try_release(tries, "made job %d" % seed, folder, "job.job", 1)
        kind = " ".join(said.split()[:2 if said.startswith("cannot") else 1])
        if said.startswith("released"):
            draw = random.Random(seed)
            certificate = certificate_in(folder)
            tries.count("made, with repairs" if b"\nrepair" in
                        certificate else "made, without repairs")
            if draw.random() < 0.25 and certificate:
                write(folder, "c.cert", first_version(certificate))
            put = sorted(set(map(os.fsdecode, os.listdir(folder))) - set(made.files))
            name = draw.choice(put + [n for n in put if n.startswith("c.")] +
                               [draw.choice(sorted(made.files))])
            change = changed_number if draw.random() < 0.7 else damaged
            write(folder, name, change(draw, read(folder, name)))
            tries.compare("made job %d with %s changed" % (seed, name), folder, b"job.job")
        elif not said.startswith("refused"):
            tries.count("made, not released: " + kind)
        shutil.rmtree(folder)


def try_cases(tries: Tries, room: str, files: List[str]) -> None:
    """Stored cases, whose answers came from neither program: releases, refusals, and releases that
    aren't accepted.
    """
    for file in files:
        with open(file) as lines:
            for case in map(json.loads, lines):
                puts, words, expected = case["puts"], case["words"], case["report"].rstrip("\n")
                if words[0] not in ("run", "check") or len(
                        words) != 2 or words[0] == "run" and case["status"] not in (0, 2):
                    continue
                folder = new_folder(room)
                lay({name: data.encode("latin-1") for name, data in case["files"].items()}, folder)
                if words[0] == "run" and case["status"] == 0:
                    if puts is None or any(data is None for _, data in puts):
                        shutil.rmtree(folder)
                        continue
                    lay({name: data.encode("latin-1") for name, data in puts}, folder)
                    expected = "accepted"
                tries.compare("case %d" % case["seed"], folder, words[1].encode("latin-1"),
                              expected)
                shutil.rmtree(folder)
