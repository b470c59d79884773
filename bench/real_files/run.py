#!/usr/bin/env python3
"""Tries to make argus lose an input or an earlier output of a run, and to fail in reading and in writing, over real files.

usage: run.py PROGRAM

Every try has a folder of its own with the inputs of `examples/protected` and one thing changed: a name of the job, a word of the call, a link, or
what the system allows. What argus prints on standard output, its status and its reason on standard error are compared with what is wanted, and all
files that were there before have to hold what they held, but for those that the try names. It prints each try that differs, and how many there were; its
status is 1 where one differs. A full disk is a small file system in memory, which root mounts, and a folder without permission wants root too, who becomes
another user for it: without root these are left out, and it says so. It stands outside `rt ci`.
"""

import os
import shutil
import socket
import stat
import subprocess
import sys
import tempfile

HERE = os.path.dirname(os.path.abspath(__file__))
EXAMPLE = os.path.join(HERE, "..", "..", "examples", "protected")
JOB = "turnover.job"
RELEASED = "released: 13 records, 0 skipped, 0 passed over, 9 cells, 1 primary, 4 hidden"
OPENED = "was read or written before in this run"
NOT_PLAIN = "is no plain file"
NOBODY = 65534


def text_of(path):
    with open(path, "rb") as source:
        return source.read()


def holdings(folder):
    """What each plain file of a folder holds; a name that is a link is looked at as what it leads to."""
    held = {}
    for place, _, names in os.walk(folder):
        for name in names:
            path = os.path.join(place, name)
            if os.path.exists(path) and stat.S_ISREG(os.stat(path).st_mode) and os.access(path, os.R_OK):
                held[os.path.relpath(path, folder)] = text_of(path)
    return held


def change(folder, old, new):
    """Puts a word of the job in another's place."""
    path = os.path.join(folder, JOB)
    text = text_of(path).decode()
    assert old in text, old
    with open(path, "w") as out:
        out.write(text.replace(old, new))


def make_ways(folder):
    """A folder, a link to the folder itself, links of both kinds to inputs, and what is no plain file."""
    os.mkdir(os.path.join(folder, "inner"))
    os.symlink(".", os.path.join(folder, "way"))
    for name in ("firms.asc", "firms.rda", JOB):
        os.symlink(name, os.path.join(folder, "soft." + name))
        os.link(os.path.join(folder, name), os.path.join(folder, "hard." + name))
    os.symlink("soft.firms.asc", os.path.join(folder, "softer.firms.asc"))
    os.symlink("/dev/full", os.path.join(folder, "full"))
    os.symlink("round", os.path.join(folder, "round"))
    os.symlink("turnover.csv", os.path.join(folder, "ahead.csv"))
    os.mkfifo(os.path.join(folder, "pipe"))
    with socket.socket(socket.AF_UNIX) as made:
        here = os.getcwd()
        os.chdir(folder)
        made.bind("socket")
        os.chdir(here)


def spellings(folder, name):
    """Names that lead to a file of the folder, other than its own."""
    yield "./" + name
    yield ".//" + name
    yield "inner/../" + name
    yield "way/" + name
    yield "way/way/./" + name
    yield os.path.join(folder, name)
    yield "../" + os.path.basename(folder) + "/" + name
    if os.path.exists(os.path.join(folder, "soft." + name)):
        yield "soft." + name
        yield "hard." + name
        yield "way/soft." + name
    if name == "firms.asc":
        yield "softer.firms.asc"


class Tries:
    """How many tries there were, and which of them differed."""

    def __init__(self, program, room):
        self.program, self.room, self.count, self.bad = program, room, 0, 0

    def folder(self, where=None):
        """A folder with the example's inputs and the ways to them."""
        path = tempfile.mkdtemp(dir=where or self.room)
        for name in ("firms.asc", "firms.rda", JOB):
            shutil.copy(os.path.join(EXAMPLE, name), path)
        make_ways(path)
        os.chmod(path, 0o755)
        return path

    def call(self, folder, words, **settings):
        given = {"stdout": subprocess.PIPE, "stderr": subprocess.PIPE, "stdin": subprocess.DEVNULL} | settings
        done = subprocess.run([self.program, *words], cwd=folder, timeout=20, check=False, **given)
        return done.returncode, (done.stdout or b"").decode().strip(), (done.stderr or b"").decode().strip()

    def expect(self, what, folder, words, wanted, reason, may_change=(), **settings):
        """One call: its line and status, whether its reason names the file and says why, and what the files hold after it."""
        self.count += 1
        before = holdings(folder)
        try:
            status, line, told = self.call(folder, words, **settings)
        except subprocess.TimeoutExpired:
            status, line, told = None, "no end", ""
        after = holdings(folder)
        lost = [name for name in before if after.get(name) != before[name] and name not in may_change]
        reason_fits = told == "" if reason is None else told.count("\n") == 0 and told.startswith("argus: ") and reason in told
        if (status, line) != wanted or not reason_fits or lost:
            self.bad += 1
            print("%s: %r, %r, changed: %s" % (what, (status, line), told, ", ".join(lost) or "none"))
        return after


def try_inputs(tries):
    """No output of a run, of intervals or of migrate goes to an input, whatever its name."""
    for command, old, fault in (
        ("WRITETABLE", '(1,"turnover.csv")', "write fault: table 1"),
        ("CERTIFICATE", '"turnover.cert"', "write fault: certificate"),
    ):
        for name in ("firms.asc", "firms.rda", JOB):
            for k in range(len(list(spellings(tries.folder(), name)))):
                folder = tries.folder()
                spelled = list(spellings(folder, name))[k]
                change(folder, old, old.replace("turnover.csv", spelled).replace("turnover.cert", spelled))
                tries.expect("%s %s" % (command, spelled), folder, ["run", JOB], (6, fault), spelled + ": " + OPENED)
    for name in ("firms.asc", "firms.rda", JOB, "turnover.csv"):
        for k in range(len(list(spellings(tries.folder(), name)))):
            folder = tries.folder()
            tries.call(folder, ["run", JOB])
            spelled = list(spellings(folder, name))[k]
            tries.expect("intervals " + spelled, folder, ["intervals", JOB, spelled], (6, "write fault: out"), OPENED)
    for spelled in ("./turnover.cert", "inner/../turnover.cert", "way/turnover.cert", "soft", "hard"):
        folder = tries.folder()
        tries.call(folder, ["run", JOB])
        os.symlink("turnover.cert", os.path.join(folder, "soft"))
        os.link(os.path.join(folder, "turnover.cert"), os.path.join(folder, "hard"))
        tries.expect("migrate " + spelled, folder, ["migrate", "turnover.cert", spelled], (6, "write fault: out"), OPENED)


def try_outputs(tries):
    """No output goes to an earlier one of the run, and a release before it is replaced."""
    for spelled in ("./turnover.csv", "inner/../turnover.csv", "way/turnover.csv", "ahead.csv"):
        for is_there in (False, True):
            folder = tries.folder()
            if is_there:
                tries.call(folder, ["run", JOB])
            change(folder, '"turnover.cert"', '"%s"' % spelled)
            wanted = (6, "write fault: table 1")
            after = tries.expect("twice, " + spelled, folder, ["run", JOB], wanted, OPENED, ("turnover.csv", "way/turnover.csv", "ahead.csv"))
            if not after["turnover.csv"].startswith(b"argus certificate 2\n"):
                tries.bad += 1
                print("twice, %s: the certificate is lost" % spelled)
    for name in ("turnover.csv", "turnover.cert"):
        folder = tries.folder()
        with open(os.path.join(folder, name), "w") as out:
            out.write("of an earlier run, and longer than what takes its place\n" * 100)
        tries.expect("replaced " + name, folder, ["run", JOB], (0, RELEASED), None, (name, "ahead.csv"))
        if text_of(os.path.join(folder, name)) != text_of(os.path.join(EXAMPLE, name + ".expected")):
            tries.bad += 1
            print("replaced %s: not as expected" % name)


def try_others(tries):
    """What is no plain file is neither written to nor waited for; an input that can't be read is a read fault."""
    for name, why in (
        ("inner", NOT_PLAIN),
        (".", NOT_PLAIN),
        ("/dev/full", NOT_PLAIN),
        ("/dev/null", NOT_PLAIN),
        ("full", NOT_PLAIN),
        ("pipe", NOT_PLAIN),
        ("socket", NOT_PLAIN),
        ("round", "Too many levels of symbolic links"),
        ("firms.asc/t.csv", "Not a directory"),
        ("nowhere/t.csv", "No such file or directory"),
    ):
        folder = tries.folder()
        change(folder, '"turnover.csv"', '"%s"' % name)
        tries.expect("put " + name, folder, ["run", JOB], (6, "write fault: table 1"), "argus: %s: %s" % (name, why))
    for name, file in (("firms.asc", "microdata"), ("firms.rda", "metadata"), (JOB, "job")):
        for other in ("inner", "pipe", "socket", "/dev/zero"):
            folder = tries.folder()
            if name == JOB:
                words = ["run", other]
            else:
                words = ["run", JOB]
                change(folder, '"%s"' % name, '"%s"' % other)
            tries.expect("read %s as %s" % (other, file), folder, words, (5, "read fault: " + file), "argus: %s: %s" % (other, NOT_PLAIN))


def try_permissions(tries):
    """A file that may not be read, a folder and a file that may not be written to."""
    other = {"user": NOBODY, "group": NOBODY, "extra_groups": []}
    for name, file in (("firms.asc", "microdata"), ("firms.rda", "metadata"), (JOB, "job")):
        folder = tries.folder()
        os.chmod(os.path.join(folder, name), 0)
        tries.expect("may not read " + name, folder, ["run", JOB], (5, "read fault: " + file), name + ": Permission denied", **other)
    folder = tries.folder()
    tries.expect("folder without permission", folder, ["run", JOB], (6, "write fault: certificate"), "turnover.cert: Permission denied", **other)
    folder = tries.folder()
    tries.call(folder, ["run", JOB])
    os.chmod(folder, 0o777)
    tries.expect("file of another", folder, ["run", JOB], (6, "write fault: certificate"), "turnover.cert: Permission denied", **other)


def try_full_disk(tries):
    """A put that finds no more room leaves the first of its bytes; the puts before it are whole; a second run puts all."""
    disk = os.path.join(tries.room, "disk")
    os.mkdir(disk)
    subprocess.run(["mount", "-t", "tmpfs", "-o", "size=256k", "tmpfs", disk], check=True)
    try:
        for closed in (False, True):
            folder = tries.folder(disk)
            # so long a code that the table doesn't fit the room that is left, and the certificate does
            records = "".join("%0200d%0200d%6d\n" % (k % 20, k % 7, k + 1) for k in range(400))
            with open(os.path.join(tries.room, "wide.asc"), "w") as out:
                out.write(records)
            with open(os.path.join(folder, "firms.rda"), "w") as out:
                out.write("Region 1 200\nBranch 201 200\nTurnover 401 6\n<NUMERIC>\n")
            change(folder, '"firms.asc"', '"%s"' % os.path.join(tries.room, "wide.asc"))
            change(folder, "FREQ(3,30)", "FREQ(1,0)")
            filler = os.path.join(folder, "filler")
            left = os.statvfs(disk).f_bavail * os.statvfs(disk).f_frsize
            with open(filler, "wb") as out:
                out.write(b"x" * (left - 16384))
            tries.count += 1
            how = {"preexec_fn": lambda: (os.close(1), os.close(2))} if closed else {}
            status, line, told = tries.call(folder, ["run", JOB], **how)
            part = text_of(os.path.join(folder, "turnover.csv"))
            wanted = (6, "", "") if closed else (6, "write fault: table 1", "argus: turnover.csv: No space left on device")
            os.remove(filler)
            again = tries.call(folder, ["run", JOB])
            whole = text_of(os.path.join(folder, "turnover.csv"))
            fits = (status, line) == wanted[:2] and told.startswith(wanted[2])
            if not fits or not 0 < len(part) < len(whole) or not whole.startswith(part) or again[0] != 0:
                tries.bad += 1
                print("full disk: %r, then %r; %d bytes and %d" % ((status, line, told), again, len(part), len(whole)))
            shutil.rmtree(folder)
    finally:
        subprocess.run(["umount", disk], check=True)


def try_closed(tries):
    """A standard output or a standard error that is closed or full changes neither status nor files."""
    full = os.open("/dev/full", os.O_WRONLY)
    for what, settings in (
        ("closed output", {"preexec_fn": lambda: os.close(1)}),
        ("closed error", {"preexec_fn": lambda: os.close(2)}),
        ("closed input, output and error", {"preexec_fn": lambda: (os.close(0), os.close(1), os.close(2))}),
        ("full output", {"stdout": full}),
    ):
        folder = tries.folder()
        line = RELEASED if what == "closed error" else ""
        tries.expect(what, folder, ["run", JOB], (0, line), None, **settings)
        for name in ("turnover.csv", "turnover.cert"):
            if text_of(os.path.join(folder, name)) != text_of(os.path.join(EXAMPLE, name + ".expected")):
                tries.bad += 1
                print("%s: %s not as expected" % (what, name))
        folder = tries.folder()
        change(folder, '"turnover.csv"', '"./firms.asc"')
        line = "write fault: table 1" if what == "closed error" else ""
        reason = OPENED if what in ("closed output", "full output") else None
        tries.expect(what + ", with a fault", folder, ["run", JOB], (6, line), reason, **settings)
    os.close(full)


def main():
    with tempfile.TemporaryDirectory() as room:
        # where another user may call it too
        program = shutil.copy(os.path.abspath(sys.argv[1]), os.path.join(room, "argus"))
        os.chmod(room, 0o755)
        os.chmod(program, 0o755)
        tries = Tries(program, room)
        kinds = [try_inputs, try_outputs, try_others, try_closed]
        if os.geteuid() == 0:
            kinds += [try_permissions, try_full_disk]
        else:
            print("left out without root: permissions, a full disk")
        for kind in kinds:
            kind(tries)
    print("%d tries, %d differ" % (tries.count, tries.bad))
    return 1 if tries.bad else 0


sys.exit(main())
