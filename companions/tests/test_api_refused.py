"""Tries what the Python interface raises, each kind of exception once at least, and what stands in
it."""

import os
import random
import unittest
from decimal import Decimal
from fractions import Fraction
from typing import Any, Dict

from api_support import FIRMS, ApiCase, even
from support import content, put

from argus_office import api
from argus_office.api import ArgusError, protect


class StartRefuses(ApiCase):
    """Data and words that aren't taken."""

    def test_a_negative_value_has_its_file_line_and_remedy(self) -> None:
        data = {**even(2), "turnover": [1, 2, -3, 4, 5, 6, 7, 8]}
        fault = self.refusal(api.StartRefused, data)
        self.same((fault.file, fault.line, fault.status), ("data.csv", 4, 2), "the place")
        self.assertIn("column turnover: -3 is negative", fault.answer)

    def test_of_a_csv_the_file_is_named_as_it_is(self) -> None:
        with open("my firms.csv", "w", encoding="ascii") as file:
            file.write("region,branch,turnover\nA,X,1\nB,Y,none\n")
        fault = self.refusal(api.StartRefused, "my firms.csv")
        self.same((fault.file, fault.line), ("my firms.csv", 3), "the place")
        self.same(os.listdir("."), ["my firms.csv"], "files beside the CSV")

    def test_thirteen_decimals_name_the_argument_that_rounds(self) -> None:
        data = {**even(2), "turnover": [10.1234567890123] * 8}
        fault = self.refusal(api.StartRefused, data)
        self.assertIn("10.1234567890123 has 13 decimals, and argus takes 9", fault.answer)
        self.assertIn('round={"turnover": 9}', fault.remedy[0])

    def test_words_that_start_does_not_have(self) -> None:
        self.assertIn("--colour=red isn't a word", self.refusal(
            api.StartRefused, even(2), colour="red").answer)
        for word in ("force", "out", "by"):
            self.refusal(api.StartRefused, even(2), **{word: "x"})
        self.assertIn("NK(0,1)", self.refusal(api.StartRefused, even(2), rules="NK(0,1)").answer)
        self.assertIn("SIMPLE", self.refusal(api.StartRefused, even(2), method="SIMPLE").answer)

    def test_columns(self) -> None:
        said: Any = self.refusal(api.StartRefused, even(2), value="sales").answer
        self.same(said, "there is no column sales; there are region, branch, turnover", "value")
        self.refusal(api.StartRefused, even(2), tables=[["region", "size"]])
        self.refusal(api.StartRefused, even(2), round={"size": 2})
        self.refusal(api.StartRefused, {**even(2), "turnover": [1]})
        self.refusal(api.StartRefused, {**even(2), "a,b": [1] * 8}, tables=[["region", "a,b"]])

    def test_tables_that_are_no_lists(self) -> None:
        for tables in (["region", "branch"], "region"):
            fault = self.refusal(api.StartRefused, even(2), tables=tables)
            self.assertIn("a list of columns for each table", fault.answer)

    def test_data_that_is_none(self) -> None:
        for data in (None, 3, [1, 2]):
            self.assertIn("no frame", self.refusal(api.StartRefused, data).answer)
        self.assertIn("no such file", self.refusal(api.StartRefused, "none.csv").answer)
        self.assertIn("not for a CSV", self.refusal(
            api.StartRefused, FIRMS, round={"turnover": 0}).answer)

    def test_names_columns_and_lines_that_are_of_another_kind(self) -> None:
        self.refusal(api.StartRefused, even(2), tables=[[0, 1]])
        self.refusal(api.StartRefused, {**even(2), "turnover": 5})
        self.refusal(api.StartRefused, even(2), apriori={"1": ["A,X,u"]})
        self.refusal(api.StartRefused, even(2), apriori={1: [b"A,X,u"]})
        self.refusal(api.StartRefused, even(2), apriori={9: ["A,X,u"]})
        self.refusal(api.StartRefused, even(2), levels={"region": "1"}, trees={"region": FIRMS})
        self.refusal(api.StartRefused, even(2), round={"turnover": 1.5})

    def test_text_that_is_not_utf_8(self) -> None:
        data = {**even(2), "region": ["\udcff"] * 8}
        self.assertIn("UTF-8", self.refusal(api.StartRefused, data).answer)

    def test_codes_with_line_breaks(self) -> None:
        self.refusal(api.StartRefused, {**even(2), "region": ["a\nb"] * 8})


class Damaged(ApiCase):
    """Values and files that are wrong in any way end in an exception of ours, and in no other."""

    def test_values_at_random(self) -> None:
        draw = random.Random(11)
        odd = [None, "", " ", "1,5", "1.5", "1e400", float("inf"), float("nan"), -0.0, True, b"1",
               Decimal("Infinity"), "\0", "\n", '"', "a" * 300, 10**40, Fraction(1, 3), "=1+1", []]
        for count in range(12):
            data = {it: [draw.choice(odd + [7] * 20) for _ in range(6)] for it in ("a", "b", "v")}
            try:
                protect(data, "v", [["a", "b"]], folder="made%d" % count)
            except ArgusError as fault:
                self.wants(bool(fault.answer), "an answer")

    def test_files_at_random(self) -> None:
        draw = random.Random(12)
        whole = content(FIRMS)
        for count in range(12):
            raw = bytearray(whole)
            for _ in range(draw.randint(1, 6)):
                raw[draw.randrange(len(raw))] = draw.randrange(256)
            path = put("firms%d.csv" % count, bytes(raw))
            try:
                protect(path, "turnover", [["region", "branch"]])
            except ArgusError as fault:
                self.wants(bool(fault.answer), "an answer")
            self.same(content(path), bytes(raw), "the CSV")


class FilesRefused(ApiCase):
    """Files and folders that can't be read or made."""

    def test_a_tree_and_an_a_priori_file_that_are_not_there(self) -> None:
        fault = self.refusal(api.FileFault, even(2), trees={"region": "none.hrc"})
        self.assertTrue(fault.answer.endswith("none.hrc: No such file or directory"))
        self.refusal(api.FileFault, even(2), apriori={1: "none.hst"})

    def test_a_folder_that_is_a_file(self) -> None:
        with open("taken", "w", encoding="ascii") as file:
            file.write("mine")
        self.refusal(api.FileFault, even(2), folder="taken")
        self.refusal(api.FileFault, even(2), folder="a\0b")
        self.same(content("taken"), b"mine", "the file")


class ArgusRefuses(ApiCase):
    """Answers of argus, with what explain says of them."""

    def test_a_job_refused(self) -> None:
        fault = self.refusal(api.JobRefused, even(3), apriori={1: ["A,X,c,5", "A,Z,c,5"]})
        self.same(fault.answer, "refused: apriori table 1 line 2: UnknownCode", "answer")
        self.same((fault.file, fault.line, fault.status), ("apriori1.hst", 2, 2), "the place")
        self.assertTrue(any("no such code" in it for it in fault.remedy))

    def test_files_of_a_refused_job_stay_in_a_folder_of_the_office(self) -> None:
        self.refusal(api.JobRefused, even(3), apriori={1: ["A,Z,c,5"]}, folder="office")
        self.assertTrue(os.path.exists("office/data.job"))

    def test_cannot_protect(self) -> None:
        # A alone has a firm or two, and neither B nor the total may be hidden.
        data = {"region": ["A", "B", "B", "B"], "turnover": [10, 20, 21, 22]}
        fault = self.refusal(api.CannotProtect, data, tables=[["region"]], rules="FREQ(2,30)",
                             apriori={1: ["B,p", "Total,p"]})
        self.same(fault.status, 3, "status")
        self.assertTrue(fault.answer.startswith("cannot protect "))
        self.assertTrue(fault.remedy)

    def test_undecided(self) -> None:
        draw = random.Random(5)
        data: Dict[str, Any] = {it: [draw.choice("ABC") for _ in range(120)] for it in "abc"}
        data["turnover"] = [draw.randint(1, 50) for _ in range(120)]
        tables = [["a", "b", "c"]]
        fault = self.refusal(api.Undecided, data, tables=tables, steps=1, rules="FREQ(5,30)")
        self.same(fault.status, 4, "status")
        self.assertTrue(fault.answer.startswith("undecided: work, "))
        self.assertTrue(any("<STEPS> 10" in it for it in fault.remedy))


class ProgramsRefused(ApiCase):
    """Programs that aren't there, or that say what no argus says here."""

    def test_no_program(self) -> None:
        fault = self.refusal(api.ProgramMissing, FIRMS, program="/none/argus")
        self.same(fault.answer, "/none/argus: No such file or directory", "answer")

    def test_a_program_that_is_not_built(self) -> None:
        fault = self.refusal(api.ProgramMissing, FIRMS, program=self.put_argus("exit 125\n"))
        self.assertIn("isn't built", fault.answer)

    def test_other_answers(self) -> None:
        kinds = {"read fault: metadata": (5, api.FileFault), "write fault: table 1":
                 (6, api.FileFault), "memory": (7, api.OutOfMemory), "usage: argus ..":
                 (1, api.ArgusError), "": (2, api.JobRefused)}
        for answer, (status, kind) in kinds.items():
            path = self.put_argus("echo '%s'\nexit %d\n" % (answer, status))
            self.same(self.refusal(kind, FIRMS, program=path).status, status, answer)

    def test_a_release_that_check_does_not_accept(self) -> None:
        path = self.put_argus(
            '[ "$1" = run ] && echo "released: 1 records" && exit 0\n'
            'echo "not accepted: table 1"\nexit 3\n')
        fault = self.refusal(api.NotAccepted, FIRMS, program=path)
        self.same(fault.answer, "not accepted: table 1", "answer")

    def test_no_program_later(self) -> None:
        release = protect(FIRMS, "turnover", [["region", "branch"]])
        release.programs.argus = "/none/argus"
        for question in (release.check, release.intervals, lambda: release.cells):
            with self.assertRaises(api.ProgramMissing):
                question()


if __name__ == "__main__":
    unittest.main()
