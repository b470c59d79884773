"""The scripts of built/, in a made repository."""

import gzip
import hashlib
import os
import re
import shutil
import time
from typing import Dict

from made_repository import LOGIC, Tree, change, sum_by_hand
from support import Case, content, put, put_command, read

PACKED = "-x86_64-linux.gz"


class Make(Case):
    """built/make."""

    def test_what_it_writes(self) -> None:
        """The packed programs, and what they were built from."""
        tree = Tree(self.folder)
        self.same(tree.built("is_current").status, 1, "status of is_current with nothing built")
        self.same(tree.built("check").status, 0, "status of check with nothing built")
        status, said, _ = tree.make()
        self.same(status, 0, "status of make")
        self.wants(said.startswith("built/make: argus ") and said.count("\n") == 1, "says " + said)
        lines = read(tree.at("built", "sources.sum")).splitlines()
        told = dict(line.split(" ", 1) for line in lines)
        words = ["argus", "cells", "commit", "kit", "made", "sources"]
        self.same(sorted(told), words, "the words of sources.sum")
        self.same(told["sources"], sum_by_hand(tree.top), "the checksum")
        self.same(told["kit"], "rattle-kit-13f " + LOGIC, "the kit")
        for name in ("argus", "cells"):
            made = content(tree.made(name))
            packed = content(tree.at("built", name + PACKED))
            self.same(gzip.decompress(packed), made, "the packed " + name)
            self.same(told[name], hashlib.sha256(made).hexdigest(), "the checksum of " + name)

    def test_the_same_bytes_again(self) -> None:
        """A second later, the packed programs have the same bytes, and nothing else is left."""
        tree = Tree(self.folder)
        tree.make()
        first: Dict[str, bytes] = {}
        for name in ("argus", "cells"):
            first[name] = content(tree.at("built", name + PACKED))
        time.sleep(1.1)
        tree.make()
        for name in ("argus", "cells"):
            again = content(tree.at("built", name + PACKED))
            self.same(again, first[name], "the bytes of %s, packed once more" % name)
        left = sorted(it for it in os.listdir(tree.at("built")) if it.startswith("new"))
        self.same(left, [], "what make leaves behind")

    def test_another_program(self) -> None:
        """A program that isn't the one of its name is refused, and nothing changes."""
        tree = Tree(self.folder)
        tree.make()
        put_command(tree.made("cells"), "#!/bin/sh\nexit 0\n")
        before = read(tree.at("built", "sources.sum"))
        status, _, said = tree.make()
        is_refused = status == 1 and "isn't the program cells" in said
        self.wants(is_refused, "make takes another program: %d %r" % (status, said))
        self.same(read(tree.at("built", "sources.sum")), before, "sources.sum after that")

    def test_another_machine(self) -> None:
        """The built programs are for one kind of machine."""
        tree = Tree(self.folder)
        tree.make()
        os.remove(os.path.join(tree.tools, "uname"))
        uname = '#!/bin/sh\n[ "$1" = -m ] && echo aarch64 || echo Linux\n'
        put_command(os.path.join(tree.tools, "uname"), uname)
        status, _, told = tree.ask("run", "0")
        self.wants(status == 125 and "rt isn't on the path" in told, "%d %r" % (status, told))
        status, _, told = tree.make()
        self.wants(status == 1 and "another machine" in told, "make: %d %r" % (status, told))


class IsCurrent(Case):
    """built/is_current."""

    def test_changes(self) -> None:
        """Each change of what a build reads is seen, and nothing else is."""
        tree = Tree(self.folder)
        tree.make()
        begun = time.time()
        self.same(tree.built("is_current").status, 0, "status after make")
        self.wants(time.time() - begun < 2, "is_current takes two seconds")
        os.utime(tree.main())
        self.same(tree.built("is_current").status, 0, "status after a touch")
        cells = tree.at("crates", "cells_prog", "specs", "Lib.antt")
        proof = tree.at("crates", "argus_prog", "proofs", "+main", "Of.antt")
        for path in (tree.main(), cells, proof, tree.at("crates.txt"), tree.at("HANDLES")):
            was = read(path)
            change(path)
            self.same(tree.built("is_current").status, 1, "status after a change of " + path)
            put(path, was)
            self.same(tree.built("is_current").status, 0, "status after it was taken back")

    def test_names(self) -> None:
        """A file's name counts, and a file in out/ doesn't."""
        tree = Tree(self.folder)
        tree.make()
        main = tree.main()
        os.rename(main, main + ".old")
        self.same(tree.built("is_current").status, 1, "status after a file got another name")
        os.rename(main + ".old", main)
        put(tree.at("crates", "argus_prog", "src", "more.rt"), "")
        self.same(tree.built("is_current").status, 1, "status after an empty file came")
        os.remove(tree.at("crates", "argus_prog", "src", "more.rt"))
        put(tree.at("crates", "argus_prog", "out", "anything"), "")
        self.same(tree.built("is_current").status, 0, "status after a file came into out/")

    def test_damage(self) -> None:
        """A packed file of which a byte is another one."""
        tree = Tree(self.folder)
        tree.make()
        tree.damage()
        status, said, _ = tree.built("is_current")
        self.wants(status == 1 and "argus isn't the program" in said, "%d %r" % (status, said))


class Check(Case):
    """built/check."""

    def test_what_the_gate_left(self) -> None:
        """Programs as the gate left them are compared byte for byte."""
        tree = Tree(self.folder)
        tree.make()
        tree.leave()
        status, said, _ = tree.built("check")
        is_same = status == 0 and "byte for byte" in said and said.count("\n") == 1
        self.wants(is_same, "as the gate left them: %d %r" % (status, said))
        tree.leave(" ")
        status, said, _ = tree.built("check")
        self.wants(status == 1 and "argus differs" in said, "a byte more: %d %r" % (status, said))
        tree.leave()
        tree.damage()
        self.same(tree.built("check").status, 1, "status of check with a damaged file")

    def test_what_is_proved(self) -> None:
        """What the gate left is taken unless a source is newer; then it is built by proving."""
        tree = Tree(self.folder)
        tree.make()
        tree.leave()
        self.same(tree.built("check", True).status, 0, "status of check")
        self.same(tree.asked_of_rt(), [], "what rt was asked where the gate left programs")
        time.sleep(0.02)
        os.utime(tree.main())
        status, said, _ = tree.built("check", True)
        self.wants(status == 0 and "built by proving" in said, "older: %d %r" % (status, said))
        self.wants("run" in tree.asked_of_rt(), "a source is newer, so something is proved")
        change(tree.main())
        status, said, _ = tree.built("check", True)
        self.wants(status == 0 and "moved on" in said, "moved on: %d %r" % (status, said))
        self.same(tree.asked_of_rt(), [], "what rt was asked where the sources have moved on")


class NoUse(Case):
    """Programs in built/ that can't be taken."""

    def test_damaged(self) -> None:
        """A damaged one is built by proving."""
        tree = Tree(self.folder)
        tree.make()
        tree.damage()
        status, _, told = tree.ask("run", "0", has_rt=True)
        first = told.split("\n")[0]
        is_told = "is damaged, so it has to be built by proving" in first
        self.wants(status == 0 and is_told, "damaged: %d %r" % (status, told))
        self.wants("run" in tree.asked_of_rt(), "the damaged program was built")

    def test_another_library(self) -> None:
        """A program that this machine's C library can't load says nothing on standard output."""
        tree = Tree(self.folder).ready()
        text = "#!/no/such/loader\n"
        digest = hashlib.sha256(text.encode()).hexdigest()
        sources = tree.at("built", "sources.sum")
        for name in ("argus", "cells"):
            put(tree.at("built", name + PACKED), gzip.compress(text.encode(), mtime=0))
            put(sources, re.sub("(?m)^%s .*$" % name, "%s %s" % (name, digest), read(sources)))
        shutil.rmtree(tree.at("out"))
        self.same(tree.built("is_current").status, 0, "status of is_current")
        status, _, told = tree.ask("run", "0", has_rt=True)
        wanted = (
            r"argus: the program in built/ doesn't run here \(it wants glibc 2.34 or later; here "
            r"is .*\), so it has to be built by proving\n"
        )
        self.wants(status == 0 and re.match(wanted, told) is not None, "%d %r" % (status, told))
        self.wants("run" in tree.asked_of_rt(), "it was built")
        left = [it for it in os.listdir(tree.at("out")) if re.search(r"\.\d", it)]
        self.same(left, [], "what is left in out/")
