"""The gate's script, in a made repository: what it tries, what it says, and its status."""

import os
import re
from typing import List, Tuple

from made_repository import Tree, copied
from support import Case, call, put, put_command, read


def gate(tree: Tree, says: str, status: int = 0) -> Tuple[int, List[str]]:
    """The status and the lines of the gate, where rt says this and ends so."""
    put(os.path.join(tree.folder, "ci.says"), says)
    put(os.path.join(tree.folder, "ci.status"), str(status))
    found = call([tree.at(".ci", "run")], "/", tree.environment(has_rt=True))
    return found.status, found.out.rstrip("\n").split("\n")


class Gate(Case):
    """.ci/run."""

    def setUp(self) -> None:
        super().setUp()
        self.tree = Tree(self.folder)
        copied(".ci/run", self.tree.top)
        self.tree.make()
        self.tree.leave()
        script = '#!/bin/sh\n"$(dirname "$0")/../argus" from 0 >"$(dirname "$0")/said"\n'
        put_command(self.tree.at("examples", "try"), script)
        tries = "#!/bin/sh\necho one; echo companions: 5 tests, 0 failed\n"
        put_command(self.tree.at("companions", "try"), tries)

    def test_passes(self) -> None:
        """After a plain `rt ci` the tries, a line each; the closing line is rt's."""
        self.wants("\nrt ci\n" in read(self.tree.at(".ci", "run")), ".ci/run has a line `rt ci`")
        status, said = gate(self.tree, "rt: ok\n7 passed, 0 failed\n")
        self.same(status, 0, "the gate's status")
        self.same(said[:2], ["rt: ok", "7 passed, 0 failed"], "what rt says comes first")
        self.same(said[-1], "7 passed, 0 failed", "the closing line")
        tried = [line.split(": ")[0] for line in said[2:-1]]
        self.same(tried, ["examples/try", "built/check", "companions/try"], "what was tried")
        self.wants("byte for byte" in said[3], said[3])
        self.wants("5 tests, 0 failed" in said[4], said[4])
        built = self.tree.at("crates", "argus_prog", "out", "argus_prog")
        self.same(read(self.tree.at("out", "argus")), read(built), "the program in out/")
        found = self.tree.ask("run", "0", ARGUS_BUILD="1")
        self.same(found, (0, "[run][0]\n", ""), "it counts as proved here")

    def test_tries_that_fail(self) -> None:
        """They count in the closing line, and the status is that of the first."""
        script = "#!/bin/sh\necho 3 passed, 0 failed; exit 5\n"
        put_command(self.tree.at("companions", "try"), script)
        put(self.tree.at("bench", "cases", "run.py"), "raise SystemExit(6)\n")
        status, said = gate(self.tree, "7 passed, 0 failed\n")
        self.wants(status in (5, 6), "the status %d" % status)
        self.same(said[-1], "7 passed, 2 failed", "the closing line")
        closing = [it for it in said if re.match(r"\d+ passed", it)]
        self.same(closing, ["7 passed, 0 failed", "7 passed, 2 failed"], "the closing lines")

    def test_style(self) -> None:
        """The style of Python is looked at where companions/style is."""
        put_command(self.tree.at("companions", "style"), "#!/bin/sh\necho style: nothing to say\n")
        status, said = gate(self.tree, "7 passed, 0 failed\n")
        lines = [it for it in said if it.startswith("companions/style: style: nothing to say")]
        self.same((status, len(lines)), (0, 1), "companions/style")

    def test_rt_fails(self) -> None:
        """Where rt fails, nothing is tried."""
        status, said = gate(self.tree, "rt: FAILED\n6 passed, 1 failed\n", 1)
        self.same((status, said), (1, ["rt: FAILED", "6 passed, 1 failed"]), "a gate that fails")
