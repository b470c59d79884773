"""The CSVs that writers.py makes, against those that R, readr and pandas write of one register.

What isn't installed is skipped.
"""

import json
import os
import shutil
import subprocess
import sys
import unittest
from typing import Any, List, Sequence

from support import Case, content, put
from writers import HEAD, WAYS, register

# Texts with line breaks can't be in the lines that R reads.
BREAK = "<br>"
R = r"""
d <- read.table('it.tsv', sep='\t', quote='', comment.char='', encoding='UTF-8', na.strings='NA',
                col.names=c(%s))
d$firm <- gsub('%s', '\n', d$firm, fixed=TRUE)
d$weight <- d$weight / 10
d$turnover <- d$turnover / 100
write.csv(d, 'r.csv', fileEncoding='UTF-8')
write.csv2(d, 'r2.csv', fileEncoding='UTF-8')
if (requireNamespace('readr', quietly=TRUE)) readr::write_csv(d, 'readr.csv')
"""
PANDAS = """
import json, pandas
d = pandas.DataFrame(json.load(open('it.json')), columns=%r)
d.weight, d.turnover = d.weight / 10, d.turnover / 100
d.to_csv('pandas.csv')
d.to_csv('pandas2.csv', sep=';', decimal=',')
"""
FILES = {
    "R's write.csv": "r.csv", "R's write.csv2": "r2.csv", "readr's write_csv": "readr.csv",
    "pandas": "pandas.csv", "pandas with semicolons": "pandas2.csv",
}


def pythons() -> List[str]:
    """The Pythons that may have pandas: the system's, and this one."""
    found = [it for it in ("/usr/bin/python3", sys.executable) if os.path.exists(it)]
    return [it for it in found if has_pandas(it)]


def has_pandas(python: str) -> bool:
    """Whether a Python has pandas."""
    words = [python, "-c", "import pandas"]
    return subprocess.run(words, capture_output=True, check=False).returncode == 0


class Writers(Case):
    """Three registers of 300 records."""

    def compare(self, records: Sequence[Sequence[Any]], names: Sequence[str]) -> int:
        """Compares the files of these names that are there; how many."""
        count = 0
        for way in WAYS:
            if FILES.get(way.name) in names and os.path.exists(FILES[way.name]):
                wanted = way.write(records, way).encode(way.encoding)
                self.same(content(FILES[way.name]), wanted, way.name)
                count += 1
        return count

    @unittest.skipUnless(shutil.which("Rscript"), "R isn't installed")
    def test_r(self) -> None:
        """R's write.csv and write.csv2, and readr's write_csv."""
        script = R % (", ".join("'%s'" % it for it in HEAD), BREAK)
        for seed in range(3):
            records = register(seed, 300)
            lines = [["NA" if it is None else str(it) for it in record] for record in records]
            text = "".join("\t".join(it).replace("\n", BREAK) + "\n" for it in lines)
            put("it.tsv", text, "utf-8")
            done = subprocess.run(["Rscript", "--vanilla", "-e", script], capture_output=True)
            self.same(done.returncode, 0, "Rscript: " + done.stderr.decode("utf-8", "replace"))
            self.assertGreaterEqual(self.compare(records, ("r.csv", "r2.csv", "readr.csv")), 2)

    @unittest.skipUnless(pythons(), "pandas isn't installed")
    def test_pandas(self) -> None:
        """pandas, with commas and with semicolons."""
        for seed in range(3):
            records = register(seed, 300)
            put("it.json", json.dumps(records), "utf-8")
            done = subprocess.run([pythons()[0], "-c", PANDAS % HEAD], capture_output=True)
            self.same(done.returncode, 0, "pandas: " + done.stderr.decode("utf-8", "replace"))
            self.same(self.compare(records, ("pandas.csv", "pandas2.csv")), 2, "the files")
