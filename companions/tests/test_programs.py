"""Tries how the programs are found and asked, with stand-ins that say what they were given."""

import hashlib
import os
import subprocess
import sys
import tempfile
import unittest
from unittest import mock

TOP = os.path.dirname(os.path.dirname(os.path.realpath(__file__)))
sys.path.insert(0, TOP)

from argus_office import programs  # noqa: E402

SAYS_WORDS = """#!/bin/sh
echo "words $# $*"
echo "build $ARGUS_BUILD explain $ARGUS_EXPLAIN in $(pwd -P)" >&2
read -r line && echo "was given $line"
exit 3
"""


class Stand(unittest.TestCase):
    """A folder for stand-ins of the programs."""

    def setUp(self) -> None:
        room = tempfile.TemporaryDirectory()
        self.addCleanup(room.cleanup)
        self.folder = os.path.realpath(room.name)

    def put(self, name: str, text: str, mode: int = 0o755) -> str:
        """Writes a stand-in, and gives its path."""
        path = os.path.join(self.folder, name)
        os.makedirs(os.path.dirname(path), exist_ok=True)
        with open(path, "w", encoding="utf-8") as file:
            file.write(text)
        os.chmod(path, mode)
        return path

    def fault(self, *words: str, given: str, folder: str = ".") -> str:
        """The line of the fault that a question ends in."""
        with self.assertRaises(programs.ProgramFault) as raised:
            programs.Programs(given).ask(*words, folder=folder)
        return str(raised.exception)


class Asking(Stand):
    """What a program is told, and what comes of its answer."""

    def test_words_folder_and_environment(self) -> None:
        path = self.put("argus", SAYS_WORDS)
        with mock.patch.dict(os.environ, {"ARGUS_BUILD": "1", "ARGUS_EXPLAIN": "1"}):
            said = programs.Programs(path).ask("check", "a b; $HOME.job", folder=self.folder)
        self.assertEqual(said.status, 3)
        self.assertEqual(said.out, "words 2 check a b; $HOME.job\n")
        self.assertEqual(said.err, "build 0 explain 0 in %s\n" % self.folder)

    def test_heard_errors_go_to_ours(self) -> None:
        path = self.put("argus", SAYS_WORDS)
        script = ("import sys; sys.path.insert(0, %r); from argus_office.programs import Programs; "
                  "print(repr(Programs(%r).ask('x', is_heard=True).err))" % (TOP, path))
        done = subprocess.run([sys.executable, "-B", "-c", script], check=True,
                              capture_output=True, cwd=self.folder)
        self.assertEqual(done.stdout, b"''\n")
        self.assertEqual(done.stderr.decode(), "build 0 explain 0 in %s\n" % self.folder)

    def test_bytes_stay(self) -> None:
        path = self.put("argus", "#!/bin/sh\nprintf 'caf\\351 \\303\\274\\n'\n")
        said = programs.Programs(path).ask()
        self.assertEqual(os.fsencode(said.out), b"caf\xe9 \xc3\xbc\n")
        self.assertEqual((said.out, said.err), ("caf\udce9 \u00fc\n", ""))

    def test_not_built(self) -> None:
        path = self.put("argus", "#!/bin/sh\nexit 125\n")
        self.assertEqual(self.fault("run", "x.job", given=path),
                         "the program argus isn't built, and no companion begins a build: call "
                         "%s by itself first" % path)

    def test_ended_by_signal(self) -> None:
        path = self.put("argus", "#!/bin/sh\nkill -9 $$\n")
        self.assertEqual(self.fault(given=path), "the program argus was ended by signal 9")

    def test_cannot_be_called(self) -> None:
        path = os.path.join(self.folder, "none")
        self.assertEqual(self.fault(given=path), path + ": No such file or directory")
        plain = self.put("plain", "#!/bin/sh\n", 0o644)
        self.assertEqual(self.fault(given=plain), plain + ": Permission denied")
        path = self.put("argus", SAYS_WORDS)
        self.assertEqual(self.fault(given=path, folder="/none/there"),
                         "/none/there: there is no such folder")
        self.assertIn("null", self.fault("a\0b", given=path))


class Finding(Stand):
    """Where the programs are looked for."""

    def test_given_comes_before_the_environment(self) -> None:
        path, other = self.put("argus", SAYS_WORDS), self.put("other/argus", SAYS_WORDS)
        with mock.patch.dict(os.environ, {"ARGUS": other}):
            self.assertEqual(programs.Programs(path).argus, path)
            self.assertEqual(programs.Programs().argus, other)

    def test_the_clone_comes_before_the_package(self) -> None:
        with mock.patch.dict(os.environ):
            os.environ.pop("ARGUS", None)
            launcher = os.path.join(os.path.dirname(TOP), "argus")
            self.assertEqual(programs.Programs().argus, launcher)
            self.assertTrue(programs.Programs().is_launcher())
            with mock.patch.object(programs, "CLONE", self.folder):
                inside = os.path.join(TOP, "argus_office", "built", "argus")
                self.assertEqual(programs.Programs().argus, inside)

    def test_names_are_of_this_folder_or_of_the_path(self) -> None:
        path = self.put("argus_of_path", SAYS_WORDS)
        with mock.patch.dict(os.environ, {"PATH": self.folder}):
            self.assertEqual(programs.Programs("argus_of_path").argus, path)
        before = os.getcwd()
        os.chdir(self.folder)
        self.addCleanup(os.chdir, before)
        self.assertEqual(programs.Programs("argus_of_path").argus, path)
        self.assertEqual(programs.Programs("./gone").argus, os.path.join(self.folder, "gone"))

    def test_cells_of_a_launcher(self) -> None:
        launcher = programs.Programs(self.put("argus", SAYS_WORDS))
        self.put("built/launch.sh", "")
        self.put("cells", "#!/bin/sh\necho the old path\n")
        self.assertEqual(launcher.cells("x.job", "--relations").out,
                         "words 3 cells x.job --relations\n")

    def test_cells_beside_a_program(self) -> None:
        built = self.put("some/argus", "\x7fELF")
        with self.assertRaises(programs.ProgramFault) as raised:
            programs.Programs(built).cells("x.job")
        self.assertEqual(str(raised.exception), "there is no program cells beside argus")
        cells = self.put("some/cells", SAYS_WORDS)
        self.assertEqual(programs.Programs(built).cells_words(), [cells])
        said = programs.Programs(built).cells("x.job")
        self.assertEqual((said.out, said.status), ("words 1 x.job\n", 3))

    def test_cells_of_an_entry_that_is_installed_and_of_a_path(self) -> None:
        entry = self.put("bin/argus", SAYS_WORDS)
        self.assertEqual(programs.Programs(entry).cells_words(), [entry, "cells"])
        cells = self.put("other/cells", SAYS_WORDS)
        self.assertEqual(programs.Programs(entry, cells).cells_words(), [cells])

    def test_checksum_is_of_the_program_itself(self) -> None:
        given = programs.Programs(self.put("argus", SAYS_WORDS))
        self.put("out/argus", "the program")
        self.assertEqual(given.checksum(), hashlib.sha256(SAYS_WORDS.encode()).hexdigest())
        self.put("built/launch.sh", "")
        self.assertEqual(given.checksum(), hashlib.sha256(b"the program").hexdigest())
        with self.assertRaises(programs.ProgramFault):
            programs.Programs(os.path.join(self.folder, "away", "none")).checksum()


class Companions(unittest.TestCase):
    """A companion is called as a program of its own."""

    def test_start_says_its_help(self) -> None:
        said = programs.companion("start", "--help")
        self.assertEqual((said.status, said.err), (0, ""))
        self.assertIn("--value COLUMN", said.out)

    def test_a_word_of_no_companion(self) -> None:
        said = programs.companion("nonesuch")
        self.assertEqual((said.status, said.out), (125, ""))
        self.assertEqual(said.err, "argus: this package has no program inside\n")


if __name__ == "__main__":
    unittest.main()
