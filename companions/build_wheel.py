"""Builds the wheel of argus_office, with the built programs inside, the same bytes each time.

It is what pip calls for this folder (a build backend with nothing but the standard library), and
what `built/make wheel` calls. The wheel is for x86-64 Linux with glibc 2.34 or later, as the
programs are.
"""

import base64
import gzip
import hashlib
import os
import re
import stat
import sys
import zipfile
from typing import Any, Dict, List, Optional, Tuple

HERE = os.path.dirname(os.path.realpath(__file__))
PACKAGE = os.path.join(HERE, "argus_office")
BUILT = os.path.join(os.path.dirname(HERE), "built")
TAG = "py3-none-manylinux_2_34_x86_64"
# The time that every file of the wheel has, and the modes of files and of programs.
TIME = (2026, 1, 1, 0, 0, 0)
PLAIN, RUNS = 0o644, 0o755
KINDS = (".py", ".txt", ".css", ".js", ".typed")
METADATA = """Metadata-Version: 2.1
Name: argus-office
Version: %s
Summary: Protect tables of business data, with a certificate that anyone can check
Requires-Python: >=3.9
"""
WHEEL = "Wheel-Version: 1.0\nGenerator: argus\nRoot-Is-Purelib: false\nTag: %s\n" % TAG
SCRIPTS = "[console_scripts]\nargus = argus_office.command:installed\n"
# A file of the wheel: its name there, its bytes and its mode.
Entry = Tuple[str, bytes, int]


def read(path: str) -> bytes:
    """The bytes of a file."""
    with open(path, "rb") as file:
        return file.read()


def version() -> str:
    """The version that the package says of itself."""
    found = re.search(rb'__version__ = "([0-9.]+)"', read(os.path.join(PACKAGE, "__init__.py")))
    if found is None:
        raise SystemExit("build_wheel: argus_office/__init__.py has no version")
    return found.group(1).decode()


def modules() -> List[Entry]:
    """The files of the package, by their names."""
    found = []
    for at, folders, names in os.walk(PACKAGE):
        folders.sort()
        for name in sorted(names):
            if name.endswith(KINDS):
                path = os.path.join(at, name)
                found.append((os.path.relpath(path, HERE), read(path), PLAIN))
    return found


def programs() -> List[Entry]:
    """The built programs, unpacked, with what they were built from."""
    told = read(os.path.join(BUILT, "sources.sum"))
    sums = dict(line.split(" ", 1) for line in told.decode().splitlines())
    found = [("argus_office/built/sources.sum", told, PLAIN)]
    for name in ("argus", "cells"):
        program = gzip.decompress(read(os.path.join(BUILT, name + "-x86_64-linux.gz")))
        if hashlib.sha256(program).hexdigest() != sums.get(name):
            raise SystemExit("build_wheel: built/ has a damaged program %s" % name)
        found.append(("argus_office/built/" + name, program, RUNS))
    return found


def entries() -> List[Entry]:
    """All files of the wheel, the record of them last."""
    info = "argus_office-%s.dist-info/" % version()
    found = sorted(modules() + programs())
    found.append((info + "METADATA", (METADATA % version()).encode(), PLAIN))
    found.append((info + "WHEEL", WHEEL.encode(), PLAIN))
    found.append((info + "entry_points.txt", SCRIPTS.encode(), PLAIN))
    lines = ["%s,sha256=%s,%d\n" % (name, digest(data), len(data)) for name, data, _ in found]
    record = "".join(lines) + info + "RECORD,,\n"
    return [*found, (info + "RECORD", record.encode(), PLAIN)]


def digest(data: bytes) -> str:
    """The checksum of a file as a wheel's record has it."""
    return base64.urlsafe_b64encode(hashlib.sha256(data).digest()).rstrip(b"=").decode()


def build_wheel(
    wheel_directory: str,
    config_settings: Optional[Dict[str, Any]] = None,
    metadata_directory: Optional[str] = None,
) -> str:
    """Writes the wheel into a folder, and gives its name. (Names and arguments are pip's.)"""
    name = "argus_office-%s-%s.whl" % (version(), TAG)
    with zipfile.ZipFile(os.path.join(wheel_directory, name), "w", zipfile.ZIP_DEFLATED) as wheel:
        for path, data, mode in entries():
            info = zipfile.ZipInfo(path, TIME)
            info.compress_type = zipfile.ZIP_DEFLATED
            info.create_system = 3
            info.external_attr = (stat.S_IFREG | mode) << 16
            wheel.writestr(info, data, compresslevel=9)
    return name


def get_requires_for_build_wheel(config_settings: Optional[Dict[str, Any]] = None) -> List[str]:
    """Nothing else is needed."""
    return []


if __name__ == "__main__":
    print(build_wheel(sys.argv[1]))
