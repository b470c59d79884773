"""What the tries have in common: how one is counted, and how a command is called."""

import os
import shutil
import subprocess
import tempfile
import traceback
from typing import Any, Callable, Dict, List, Optional, Tuple

TOP = os.path.dirname(os.path.dirname(os.path.dirname(os.path.abspath(__file__))))
count = 0
differing: List[str] = []
# Which try is running.
title = ""


def wants(is_so: bool, what: str) -> None:
    """Counts a try, and says what differs."""
    global count
    count += 1
    if not is_so:
        differing.append(what)
        print("%s: %s" % (title, what), flush=True)


def same(found: Any, wanted: Any, what: str) -> None:
    wants(found == wanted, "%s: %r, and not %r" % (what, found, wanted))


def run(name: str, call: Callable[[str], None]) -> None:
    """Runs one function of tries in a folder of its own."""
    global title
    title = name
    with tempfile.TemporaryDirectory(prefix="argus-launch-") as folder:
        try:
            call(folder)
        except Exception:  # a try that ends so is one that differs
            traceback.print_exc()
            wants(False, "it ended with a fault of its own")


def put(path: str, text: str, is_command: bool = False) -> str:
    os.makedirs(os.path.dirname(path), exist_ok=True)
    with open(path, "w", encoding="latin-1", newline="\n") as file:
        file.write(text)
    if is_command:
        os.chmod(path, 0o755)
    return path


def read(path: str) -> str:
    with open(path, encoding="latin-1", newline="") as file:
        return file.read()


def call(words: List[Any],
         cwd: str,
         env: Optional[Dict[str, str]] = None,
         text: str = "") -> Tuple[int, str, str]:
    """Status, standard output and standard error of a command."""
    done = subprocess.run(words,
                          cwd=cwd,
                          env=env,
                          input=text.encode("latin-1"),
                          stdout=subprocess.PIPE,
                          stderr=subprocess.PIPE)
    return done.returncode, done.stdout.decode("latin-1"), done.stderr.decode("latin-1")


def copied(name: str, folder: str) -> str:
    """A folder of this repository, or a file, copied into a folder."""
    source, to = os.path.join(TOP, name), os.path.join(folder, name)
    if os.path.isdir(source):
        shutil.copytree(source, to)
    else:
        os.makedirs(os.path.dirname(to), exist_ok=True)
        shutil.copy2(source, to)
    return to
