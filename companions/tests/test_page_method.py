"""The method text of a release, by the English template and by one of an office."""

import os
import unittest

from page_support import page, release_of
from support import Case, put, put_command, read

JOB = "turnover.job"
# A template with every field and every condition.
ALL = """{response}: {tables}; {records} {cells} {hidden} {sensitive} {more} {share_cells}

[ hidden ]
some hidden

[none hidden]
none hidden

[rounded]
rounded to {base}

[rule FREQ]
FREQ {n} {r}

[rule  NK]
NK {n} {k}

[rule P]
P {p}

[rule PQ]
PQ {p} {q}

[rule ZERO]
ZERO {r}

[method MOD]
modular

[method GH]
hypercube

[method RND]
rounding

[weighted]
weighted

[stated]
stated

[contributors]
guarded

[each table]
{table} {spans}: {table_hidden} of {table_cells}, {share_records} of the records
and {share_value} of {table_response}

[always]
end
"""


class MethodText(Case):
    """What the text says, worked out by hand from the records of the examples."""

    def by(self, example: str, job: str) -> "list[str]":
        """The paragraphs by the template with all fields."""
        release_of(example)
        put("all.txt", ALL)
        said = page(job, "--method", "--template", "all.txt")
        self.same((said.status, said.err), (0, ""), "the call")
        return said.out.rstrip("\n").split("\n\n")

    def test_hidden(self) -> None:
        """Two regions by two branches, all four cells hidden below three totals a side."""
        self.same(self.by("protected", JOB), [
            "Turnover: Region and Branch; 13 9 4 1 3 44.4%", "some hidden", "FREQ 3 30", "modular",
            "1 Region and Branch: 4 of 9, 100.0% of the records\nand 100.0% of Turnover", "end",
        ], "the example protected")

    def test_rounded(self) -> None:
        found = self.by("rounded", "turnover.job")
        self.same([it for it in found if it.startswith(("rounded", "rounding", "some", "1 "))],
                  ["rounded to 25", "rounding"], "the example rounded, by its line SUPPRESS")

    def test_english(self) -> None:
        """The template itself is printed without a job, and its text has no field left."""
        release_of("protected")
        template = page("--method").out
        self.wants(template.startswith("Protection of the tables of {response}\n"), "the template")
        put("english.txt", template)
        said = page(JOB, "--method")
        self.same(page(JOB, "--method", "--template", "english.txt").out, said.out, "the template")
        self.wants("Not shown are 4 cells, 44.4% of all: 1 because" in said.out, said.out)
        self.wants("{" not in said.out and "[" not in said.out, "a field is left: " + said.out)
        self.wants("argus check has accepted it" in said.out, said.out)
        self.same(len(said.out.split()) < 350, True, "half a page")
        self.same(sorted(os.listdir(".")).count("turnover.html"), 0, "a page was written")


class Refusals(Case):
    """Templates that are none, releases that aren't accepted, and words that don't fit."""

    def setUp(self) -> None:
        super().setUp()
        release_of("protected")

    def refused(self, words: "list[str]", why: str, status: int = 2) -> None:
        """A call that ends with a status and one line on standard error."""
        said = page(*words)
        self.same((said.status, said.out, said.err), (status, "", "page: %s\n" % why), str(words))

    def test_template(self) -> None:
        put("it.txt", "One\n\n[hidden]\nTwo {cells} {colour}\n")
        words = [JOB, "--method", "--template", "it.txt"]
        self.refused(words, "it.txt, line 3: {colour} is no field of a paragraph [hidden]")
        put("it.txt", "{n}\n")
        self.refused(words, "it.txt, line 1: {n} is no field of a paragraph [always]")
        put("it.txt", "\n\n[sometimes]\nTwo\n")
        self.refused(words, "it.txt, line 3: [sometimes] is no condition of a template")
        put("it.txt", "[rule XY]\nTwo\n")
        self.refused(words, "it.txt, line 1: [rule XY] is no condition of a template")
        os.remove("it.txt")
        self.refused(words, "it.txt: No such file or directory")
        put("it.txt", "{cells" * 20000)
        self.same(page(*words).status, 0, "a long line")

    def test_release(self) -> None:
        put("turnover.csv", read("turnover.csv").replace("140", "141"))
        said = page(JOB, "--method")
        why = "page: no method text, since argus check turnover.job says: not accepted"
        self.same((said.status, said.out), (3, ""), "an altered table")
        self.wants(said.err.startswith(why), said.err)

    def test_listing(self) -> None:
        argus = put_command("programs/argus", "#!/bin/sh\n[ $1 = check ] && echo accepted\n")
        put_command("programs/cells", "#!/bin/sh\necho no memory\nexit 2\n")
        said = page(JOB, "--method", "--argus", argus)
        self.same((said.status, said.out), (2, ""), "without cells")
        self.wants("Made without the listing of the cells" in said.err, said.err)

    def test_words(self) -> None:
        for words in (
            [JOB, "it.html", "--method"], [JOB, "--method", "--public"], ["--template", "it.txt"],
            [JOB, "--method", "--title", "a"], ["--method", "--template", "it.txt"],
            [JOB, "--template", "it.txt"], [JOB, "--method", "--template"],
        ):
            said = page(*words)
            self.same((said.status, said.out), (1, ""), str(words))
            self.wants(said.err.startswith("usage: argus page JOB "), said.err)


if __name__ == "__main__":
    unittest.main()
