"""Tries the Python interface: what a release gives, beside sums of its records, and what stays on
disk."""

import os
import random
import time
import unittest
from decimal import Decimal
from fractions import Fraction

from api_support import FIRMS, ApiCase, even, firms, of_cells, sums_of, without
from support import content

from argus_office import api
from argus_office.api import protect

REGION_BRANCH = [["region", "branch"]]
# What the manual prints of this example: the hidden places of its table.
HIDDEN = [("North", "Food"), ("North", "Steel"), ("South", "Food"), ("South", "Steel")]


class Firms(ApiCase):
    """The example of thirteen firms with a turnover, from its CSV."""

    def setUp(self) -> None:
        super().setUp()
        self.release = protect(FIRMS, value="turnover", tables=REGION_BRANCH)

    def test_tables_are_as_published(self) -> None:
        (table,) = self.release.tables
        self.same(table.variables, ("region", "branch"), "variables")
        self.same(table.response, "turnover", "response")
        wanted = sums_of(firms(), table.variables, "turnover")
        for codes, shown in table.rows:
            self.same(shown is None, codes in HIDDEN, "whether %s is hidden" % (codes,))
            if shown is not None:
                self.same(Fraction(shown), wanted[codes][0], "the value of %s" % (codes,))
        self.same(len(table.rows), len(wanted), "how many places")

    def test_cells_beside_sums_of_the_records(self) -> None:
        cells = self.release.cells
        names = ("region", "branch")
        self.same(of_cells(cells, names), sums_of(firms(), names, "turnover"), "values, records")
        self.assertTrue(all(isinstance(it.value, Decimal) for it in cells))
        status = {it.status for it in cells if tuple(it.codes.values()) not in HIDDEN}
        self.same(status, {"s"}, "status of what is shown")
        (sensitive,) = [it for it in cells if it.status == "u"]
        # Two firms of 10.5 and 9.5: fewer than three, and each estimates the other exactly. The
        # larger level is that of FREQ, 30 percent of the cell.
        self.same(sensitive.codes, {"region": "North", "branch": "Food"}, "codes")
        self.same(sorted(sensitive.rules), ["FREQ", "P"], "rules")
        self.same((sensitive.up, sensitive.down), (Decimal(6), Decimal(6)), "levels")
        self.same((sensitive.published, sensitive.origin), (None, "primary"), "as hidden")
        self.same([it.status for it in cells if it.published is None].count("x"), 3, "others")

    def test_intervals_are_those_of_a_table_of_two_by_two(self) -> None:
        # North has 70, South 70, Food 50, Steel 90: one cell says the three others.
        found = {tuple(it.codes.values()): (it.low, it.high) for it in self.release.intervals()}
        wanted = dict(zip(HIDDEN, [(0, 50), (20, 70), (0, 50), (20, 70)]))
        self.same(found, wanted, "ends")

    def test_check_says_yes_until_a_figure_changes(self) -> None:
        self.assertTrue(self.release.check())
        path = os.path.join(self.release.job.folder, self.release.job.tables[0])
        raw = content(path).replace(b"140.0", b"141.0")
        with open(path, "wb") as file:
            file.write(raw)
        for question in (self.release.check, lambda: self.release.cells, self.release.intervals):
            with self.assertRaises(api.NotAccepted) as raised:
                question()
            self.assertIn("not accepted", raised.exception.answer)
        with self.assertRaises(api.NotAccepted):
            self.release.page("firms.html", public=True)
        self.assertFalse(os.path.exists("firms.html"))

    def test_what_start_and_argus_said(self) -> None:
        self.assertTrue(self.release.answer.startswith("released: 13 records, 1 skipped"))
        self.assertIn("firms.csv: 14 records", self.release.said[0])
        self.same(self.release.explain(), [], "nothing odd")
        self.assertIn(self.release.answer, repr(self.release))

    def test_pages(self) -> None:
        path = self.release.page("firms.html", title="Turnover")
        self.same(path, os.path.join(self.folder, "firms.html"), "the path")
        self.assertIn(b"<title>", content(path))
        public = content(self.release.page("public.html", public=True))
        self.assertNotIn(b"20.0", public)
        with open("notes.html", "w", encoding="ascii") as file:
            file.write("mine")
        with self.assertRaises(api.PageRefused):
            self.release.page("notes.html")
        self.same(content("notes.html"), b"mine", "another's file")

    def test_save_copies_all_and_overwrites_nothing(self) -> None:
        folder = self.release.save("kept")
        self.same(sorted(os.listdir(folder)), self.release.files, "files")
        self.same(sorted(os.path.splitext(it)[1] for it in self.release.files),
                  [".asc", ".cert", ".csv", ".job", ".rda"], "kinds of files")
        with open("kept/firms.rda", "ab") as file:
            file.write(b"// mine\n")
        before = content("kept/firms.rda")
        os.unlink("kept/firms.job")
        with self.assertRaises(api.FileFault):
            self.release.save("kept")
        self.same(content("kept/firms.rda"), before, "a file that was there")
        self.assertFalse(os.path.exists("kept/firms.job"))

    def test_files_go_with_the_release(self) -> None:
        folder = self.release.job.folder
        self.assertTrue(os.path.isdir(folder))
        del self.release
        self.assertFalse(os.path.exists(folder))


class Folders(ApiCase):
    """A folder of the office's own, in which nothing is overwritten."""

    def test_files_are_made_beside_others(self) -> None:
        os.mkdir("office")
        with open("office/notes.txt", "w", encoding="ascii") as file:
            file.write("mine")
        release = protect(FIRMS, "turnover", REGION_BRANCH, folder="office")
        self.same(release.job.folder, os.path.join(self.folder, "office"), "the folder")
        self.same(sorted([*release.files, "notes.txt"]), sorted(os.listdir("office")), "files")
        self.same(content("office/notes.txt"), b"mine", "another's file")
        self.assertNotIn("notes.txt", os.listdir(release.save("kept")))

    def test_a_csv_in_the_folder_itself(self) -> None:
        path = self.put_firms()
        before = content(path)
        release = protect(path, "turnover", REGION_BRANCH, folder=".")
        self.same(content(path), before, "the CSV")
        self.assertNotIn("firms.csv", release.files)

    def test_every_name_that_is_taken_is_refused(self) -> None:
        names = protect(even(4), "turnover", REGION_BRANCH, apriori={1: ["A,X,c,5"]}).files
        self.assertIn("apriori1.hst", names)
        for name in names:
            os.makedirs(name + ".there")
            path = os.path.join(name + ".there", name)
            with open(path, "w", encoding="ascii") as file:
                file.write("mine")
            with self.assertRaises((api.FileFault, api.StartRefused)) as raised:
                protect(even(4), "turnover", REGION_BRANCH, apriori={1: ["A,X,c,5"]},
                        folder=name + ".there")
            self.assertIn("is there already", str(raised.exception))
            self.same(content(path), b"mine", name)
            self.same(os.listdir(name + ".there"), [name], "left beside " + name)

    def test_a_folder_that_is_new_goes_again_after_a_refusal(self) -> None:
        self.refusal(api.StartRefused, even(4), value="none", folder="new")
        self.assertFalse(os.path.exists("new"))
        protect(even(4), "turnover", REGION_BRANCH, folder="new")
        self.assertTrue(os.path.exists("new/data.job"))

    def test_a_release_moves_with_its_hierarchy_and_a_priori_files(self) -> None:
        os.mkdir("away")
        with open("away/tree \u00fc.hrc", "w", encoding="utf-8") as file:
            file.write("North\n@A\nSouth\n@B\n")
        with open("away/prior.hst", "w", encoding="utf-8") as file:
            file.write("A,X,c,5\n")
        release = protect(even(4), "turnover", REGION_BRANCH,
                          trees={"region": "away/tree \u00fc.hrc"}, apriori={1: "away/prior.hst"})
        folder = release.save("kept")
        del release
        os.rename("away", "gone")
        said = api.release.Programs().ask("check", "data.job", folder=folder)
        self.same((said.status, said.out), (0, "accepted\n"), "check of what was saved")


class Ways(ApiCase):
    """Arguments beside value and tables."""

    def test_depths_levels_and_two_tables(self) -> None:
        draw = random.Random(7)
        data = {
            "branch": ["%s%d" % (draw.choice("AB"), draw.randint(1, 3)) for _ in range(300)],
            "size": [draw.choice(["small", "large"]) for _ in range(300)],
            "turnover": [draw.randint(1, 900) for _ in range(300)],
        }
        release = protect(data, "turnover", [["branch", "size"], ["branch:1"]],
                          levels={"branch": [1, 1]})
        upper = {**data, "branch": [it[0] for it in data["branch"]]}
        names = ("branch", "size")
        wanted = {**sums_of(data, names, "turnover"), **sums_of(upper, names, "turnover")}
        self.same(of_cells(release.cells, names), wanted, "cells of both levels")
        first, second = release.tables
        self.same(second.variables, ("branch",), "the name without the depth")
        self.same([codes for codes, _ in second.rows], [("Total",), ("A",), ("B",)], "level 1")
        self.same(len(first.rows), len(wanted), "places of the first table")

    def test_parents_totals_and_missing(self) -> None:
        data = {**even(5), "land": ["L1"] * 10 + ["L2"] * 10}
        data["branch"] = ["?" if k == 0 else it for k, it in enumerate(data["branch"])]
        release = protect(data, "turnover", REGION_BRANCH, parents={"region": "land"},
                          totals={"branch": "All"}, missing=["?"])
        codes = {it.codes["region"] for it in release.cells}
        self.same(codes, {"Total", "L1", "L2", "A", "B"}, "codes with groups")
        self.assertIn("All", {it.codes["branch"] for it in release.cells})

    def test_weights(self) -> None:
        data = {**even(6), "weight": [1 + k % 3 for k in range(24)]}
        release = protect(data, "turnover", REGION_BRANCH, weight="weight")
        times = {**data, "turnover": [a * b for a, b in zip(data["turnover"], data["weight"])]}
        names = ("region", "branch")
        self.same(of_cells(release.cells, names), sums_of(times, names, "turnover"), "sums")

    def test_a_rounded_release(self) -> None:
        release = protect(FIRMS, "turnover", REGION_BRANCH, method="RND(5)")
        names = ("region", "branch")
        self.same(of_cells(release.cells, names), sums_of(firms(), names, "turnover"), "truth")
        for cell in release.cells:
            self.same(cell.published % 5, 0, "multiples of 5")
            self.wants(abs(cell.published - cell.value) < 5, "a neighbour of the value")
        with self.assertRaises(api.JobRefused) as raised:
            release.intervals()
        self.assertIn("the job rounds", str(raised.exception))

    def test_contributors_have_a_file(self) -> None:
        release = protect(FIRMS, "turnover", REGION_BRANCH, contributors=True)
        self.assertIn("firms.extra", release.files)

    def test_a_csv_in_latin_1_with_semicolons_and_commas(self) -> None:
        rows = ["Gebiet;Betrag"] + ["K\u00f6ln;1,5", "Bonn;2,25"] * 5
        with open("l\u00f6hne 2025.csv", "w", encoding="latin-1") as file:
            file.write("".join(it + "\n" for it in rows))
        release = protect("l\u00f6hne 2025.csv", "Betrag", [["Gebiet"]], encoding="latin-1",
                          cost="FREQ", rules="FREQ(2,30)")
        self.same([it.value for it in release.cells], [Decimal("18.75"), Decimal("11.25"),
                                                       Decimal("7.5")], "values")

    def test_pandas_is_not_needed(self) -> None:
        with without("pandas"):
            release = protect(even(4), "turnover", REGION_BRANCH)
            self.same(release.cells[0].freq, 16, "records of the total")


class Large(ApiCase):
    """Many records."""

    def test_two_hundred_thousand_records(self) -> None:
        draw = random.Random(1)
        count = 200_000
        data = {
            "region": [draw.randint(1, 12) for _ in range(count)],
            "branch": [draw.randint(100, 130) for _ in range(count)],
            "turnover": [round(draw.lognormvariate(6, 1), 2) for _ in range(count)],
        }
        begun = time.monotonic()
        release = protect(data, "turnover", REGION_BRANCH, rules="P(10)")
        cells = release.cells
        took = time.monotonic() - begun
        names = ("region", "branch")
        self.same(of_cells(cells, names), sums_of(data, names, "turnover"), "sums")
        self.wants(took < 60, "%.1f seconds" % took)


if __name__ == "__main__":
    unittest.main()
