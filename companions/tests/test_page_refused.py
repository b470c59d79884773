"""What `argus page` refuses, what it keeps, and what it does without the programs."""

import os
import re
import shutil
import unittest

from page_support import Seen, page, page_text, release_of
from support import TOP, Case, call, content, environment, program, put, put_command, read

from argus_office.paging import sheets
from argus_office.paging.titles import title_of

JOB = "turnover.job"
USAGE = "usage: argus page JOB "


class Words(Case):
    """Words that are none, titles, and where a table is cut for paper."""

    def test_usage(self) -> None:
        for given in (
            [], ["--public"], ["a", "b", "c"], ["a", "--unchecked"], ["a", "--title"],
            ["a", "--title", ""], ["a", "--title", "||"], ["a", "--title", "a|b|c|d|e"],
            ["a", "--argus"], ["a", "--no"],
        ):
            said = page(*given)
            self.same((said.status, said.out), (1, ""), str(given))
            self.wants(said.err.startswith(USAGE), "no usage line: " + said.err)

    def test_titles(self) -> None:
        self.same(title_of(" a b | | 2025"), ("a b", "", "2025", ""), "a title's parts")
        self.same(title_of("a|b|c|d|e"), None, "too many parts")

    def test_cut(self) -> None:
        self.same(sheets.cut([1000] * 10, 790), [0, 5], "ten columns of 100 points beside 79")
        self.same(sheets.cut([100] * 3, 790), [0], "three narrow columns")
        self.same(sheets.cut([9000, 9000], 790), [0, 1], "columns wider than a page")


class Kept(Case):
    """Files that a page may not take, and releases that it can't show."""

    def setUp(self) -> None:
        super().setUp()
        release_of("protected")

    def refused(self, words: "list[str]", why: str, status: int = 2) -> None:
        """A call that ends with a status and one line on standard error."""
        said = page(*words)
        self.same((said.status, said.out, said.err.count("\n")), (status, "", 1), str(words))
        self.wants(why in said.err, "%s: it says %r, not %r" % (words, said.err, why))

    def test_files_of_the_job(self) -> None:
        for name in (JOB, "firms.asc", "firms.rda", "turnover.csv", "turnover.cert"):
            before = content(name)
            self.refused([JOB, name], "is a file of the job: give the page another name")
            self.same(content(name), before, name)

    def test_other_files(self) -> None:
        put("mine.txt", "mine\n")
        self.refused([JOB, "mine.txt"], "is there and isn't a page")
        self.same(read("mine.txt"), "mine\n", "the file")
        os.mkdir("folder")
        self.refused([JOB, "folder"], "folder: Is a directory")
        self.refused([JOB, "none/it.html"], "none/it.html: No such file")
        page(JOB, "it.html")
        before = content("it.html")
        why = "is a page that isn't for publication: give this page another name"
        self.refused([JOB, "it.html", "--public"], why)
        self.same(content("it.html"), before, "the page")
        page(JOB, "p.html", "--public")
        before = content("p.html")
        self.refused([JOB, "p.html"], "is a page for publication")
        self.same(content("p.html"), before, "the public page")
        self.refused([JOB, "q.public.html"], "is the name of a public page")
        self.same(os.path.exists("q.public.html"), False, "a page with a public name")
        self.same([it for it in os.listdir(".") if it.endswith(".part")], [], "parts left behind")

    def test_job(self) -> None:
        self.refused(["none.job"], "none.job: No such file or directory")
        put("half.job", '<OPENMETADATA> "firms.rda"\n')
        self.refused(["half.job"], "half.job isn't a whole job: see what argus says to it")
        whole = read(JOB)
        put("other.job", whole.replace('"firms.rda"', "firms"))
        self.refused(["other.job"], "other.job isn't a whole job")
        put("other.job", whole.replace("firms.rda", "none.rda"))
        self.refused(["other.job"], "none.rda: No such file or directory")

    def test_tables(self) -> None:
        """Unchecked, the tables are read as they stand."""
        whole = read("turnover.csv")
        lines = whole.splitlines(True)
        for text, why in (
            ("", "isn't as argus writes it"), (whole.replace("140", "1.4.0"), "isn't as argus"),
            (whole.replace("Region", "Place"), "isn't that of the job"),
            ("".join(lines[:-1]), "isn't whole"), (whole.replace(",90", ",9.5"), "decimals"),
            (whole + lines[1], "isn't whole"), ('"' + "a" * 200000, "table 1 (turnover.csv): "),
        ):
            put("turnover.csv", text)
            self.refused([JOB, "p.html", "--public", "--unchecked"], why)
            self.same(os.path.exists("p.html"), False, "a page was written")

    def test_certificate(self) -> None:
        whole = read("turnover.cert")
        for text, why in (
            ("argus certificate 9\n", "none of the versions that are known here"),
            (whole.replace("cells 9", "cells nine"), "can't be read: see what argus check says"),
            (None, "turnover.cert: No such file"),
        ):
            if text is None:
                os.remove("turnover.cert")
            else:
                put("turnover.cert", text)
            argus = put_command("programs/argus", "#!/bin/sh\necho not accepted: x\nexit 3\n")
            self.refused([JOB, "--argus", argus], why)

    def test_before_the_run(self) -> None:
        """Without a release it says how to make one."""
        why = "page: argus check turnover.job: refused: %s: Absent. Make the release first: argus "
        for name, what in (("turnover.csv", "table 1"), ("turnover.cert", "certificate")):
            os.remove(name)
            for words in ([JOB], [JOB, "--public"], [JOB, "--method"]):
                self.refused(words, why % what + "run turnover.job\n")

    def test_altered(self) -> None:
        """A table of which one figure was changed: no public page, unless unchecked."""
        put("turnover.csv", read("turnover.csv").replace("140", "141"))
        said = page(JOB, "it.html")
        self.same((said.status, said.out), (3, "page: it.html\n"), "the page")
        self.wants("not accepted" in page_text("it.html"), "it doesn't say so")
        self.refused([JOB, "p.html", "--public"], "no public page, since argus check", 3)
        self.same(os.path.exists("p.html"), False, "a public page of an altered table")
        self.same(page(JOB, "p.html", "--public", "--unchecked").status, 0, "unchecked")

    def test_public_takes_the_tables_alone(self) -> None:
        page(JOB, "p.html", "--public")
        before = content("p.html")
        for name in ("turnover.cert", "firms.asc"):
            os.remove(name)
        words = (JOB, "p.html", "--public", "--unchecked", "--argus", "nothing")
        self.same(page(*words).status, 0, "unchecked")
        self.same(content("p.html"), before, "the public page")
        os.remove("p.html")
        self.wants(page(JOB, "p.html", "--public").status in (2, 3), "without a certificate")
        self.same(os.path.exists("p.html"), False, "a public page without a certificate")

    def test_nothing_secret(self) -> None:
        """No true value of a hidden cell, no level and nothing of the certificate: 20, 50, 30 and
        40 stand in no shown cell, but for the total 50 and 70."""
        page(JOB, "p.html", "--public")
        own = re.compile("<style>.*?</style>|<script>.*?</script>", re.DOTALL)
        text = own.sub("", page_text("p.html"))
        self.same(re.findall(r">([0-9]+)<", text), ["140", "50", "90", "70", "70"], "figures")
        for word in ("FREQ", "step", "turnover.cert", "world"):
            self.wants(word not in text, word + " stands in the public page")


class Programs(Case):
    """The page without cells, without argus, and with programs that say something else."""

    def setUp(self) -> None:
        super().setUp()
        self.argus, self.cells = "away/argus", "away/cells"
        self.own = program("cells")

    def begin(self, name: str) -> None:
        """A release, and an argus that wants to be told to build nothing."""
        os.chdir(self.folder)
        os.mkdir(name)
        os.chdir(name)
        release_of(name)
        text = '#!/bin/sh\n[ "$ARGUS_BUILD" = 0 ] || exit 99\nexec "%s" "$@"\n' % program("argus")
        put_command(self.argus, text)

    def test_relations(self) -> None:
        for name in ("protected", "rounded"):
            self.begin(name)
            is_rounded = name == "rounded"
            first = '#!/bin/sh\n[ $# = 1 ] || { %s; }\nexec "' + self.own + '" "$@"\n'
            put_command(self.cells, first % 'echo "usage: cells JOB"; exit 1')
            said = page(JOB, "it.html", "--argus", self.argus)
            text = page_text("it.html")
            self.same(said.status, 0, name)
            self.same("Left out: the sums" in text, not is_rounded, name + ": what is left out")
            self.same("usage: cells JOB" in said.err, not is_rounded, name + ": the note")
            seen = Seen(text)
            for need in filter(None, seen.data["need"]):
                self.wants(" For " not in seen.sentence(need), "a sum without the relations")
            wrong = 'printf "relation,total,variable,parts\\n0,0,Region,4 7\\n"; exit 0'
            put_command(self.cells, first % wrong)
            said = page(JOB, "no.html", "--argus", self.argus)
            why = "the listing of the relations isn't that of the tables: line 2"
            self.wants(said.status == 2 and why in said.err, name + ": wrong relations")

    def test_cells(self) -> None:
        for name in ("protected", "rounded"):
            self.begin(name)
            for text, why in (
                (None, "there is no program cells"), ("exit 125\n", "isn't built"),
                ("kill -9 $$\n", "signal 9"), ("echo no; exit 2\n", "no"),
            ):
                if text:
                    put_command(self.cells, "#!/bin/sh\n" + text)
                else:
                    # (a script is taken for a launcher, which has cells)
                    os.remove(self.argus)
                    shutil.copy(program("argus"), self.argus)
                said = page(JOB, "it.html", "--argus", self.argus)
                self.wants(said.status == 0 and why in said.err, "%s: %s" % (name, said))
                seen = Seen(page_text("it.html"))
                self.same(seen.faults, [], name)
                self.wants("Left out: " in seen.marks.shown, "it doesn't say what is left out")
                self.same(seen.data["facts"], {}, "facts without a listing")
            few = '"%s" "$@" | head -4' % self.own
            for text in ("echo cell", "echo cell,Region; echo 0,x", few):
                put_command(self.cells, "#!/bin/sh\n%s\n" % text)
                said = page(JOB, "no.html", "--argus", self.argus)
                self.same(said.status, 2, name + ": another listing")
                why = "the listing of the cells isn't that of the tables"
                self.wants(why in said.err, said.err)

    def test_argus(self) -> None:
        for name in ("protected", "rounded"):
            self.begin(name)
            for text in ("exit 125\n", "kill -9 $$\n", "echo refused; exit 2\n", "exit 1\n"):
                put_command(self.argus, "#!/bin/sh\n" + text)
                for more in ((), ("--public",)):
                    said = page(JOB, "no.html", *more, "--argus", self.argus)
                    self.same((said.status, said.err.count("\n")), (2, 1), text + str(said))
                    self.same(os.path.exists("no.html"), False, text)
            self.same(page(JOB, "no.html", "--argus", "away/none").status, 2, "argus isn't there")

    def test_intervals(self) -> None:
        self.begin("protected")
        put_command(self.cells, '#!/bin/sh\nexec "%s" "$@"\n' % self.own)
        real = 'exec "%s" "$@"\n' % program("argus")
        text = '#!/bin/sh\n[ "$1" != intervals ] || { echo too many; exit 2; }\n'
        put_command(self.argus, text + real)
        said = page(JOB, "it.html", "--argus", self.argus)
        self.same(said.status, 0, "the page")
        self.wants("argus intervals turnover.job: too many. Left out" in said.err, said.err)
        self.same(Seen(page_text("it.html")).data["ranges"], None, "intervals")

    def test_launcher(self) -> None:
        """The launcher's words, in a process of its own."""
        release_of("protected")
        said = call([os.path.join(TOP, "argus"), "page", JOB], ".", environment())
        self.same((said.status, said.out, said.err), (0, "page: turnover.html\n", ""), "the page")


if __name__ == "__main__":
    unittest.main()
