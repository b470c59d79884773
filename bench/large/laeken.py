#!/usr/bin/env python3
"""A job of public data: the earnings of 15,691 employees, by occupation, economic activity and size of the firm.

usage: laeken.py FOLDER

The data set is `ses` of R's package laeken (Debian's r-cran-laeken). By its help page the records are synthetic: they were generated
after those of the Austrian Structure of Earnings Survey. Rscript exports the columns that are needed into a scratch folder. From them
the files of the job are written to FOLDER, in the form of jobs.py:

- A is `occupation`, 23 codes of two digits, as in the data. The table takes them without levels.
- B is `NACE1`, the economic activity, 12 sections. The code is their letter, which comes first in the data ("C-Mining").
- C is `size`, that of the firm: 1 is 10 to 49 employees, 2 is 50 to 249, 3 is 250 to 499, 4 is 500 to 999, 5 is 1,000 and more.
- V is `earnings`, those of the year. The data have them with many decimals; R rounds each to whole units.

With totals that makes 24 * 13 * 6 = 1,872 cells. Each employee counts once, without the weights of the survey. A record with a missing
value in one of the four columns is left out, since it has no cell or adds nothing to it; version 0.5.2 of the package has none. Where R
or the package isn't there, one line says what to install, and where the data set has other codes, which record isn't known; then the
status is 1.
"""

import os
import re
import subprocess
import sys
import tempfile

import jobs

VARIABLES = ([2], [1], [1])
SIZES = {"E10_49": "1", "E50_249": "2", "E250_499": "3", "E500_999": "4", "E1000": "5"}
MISSING = "NA"
KNOWN = re.compile(r"(?P<occupation>[0-9]{2})\t(?P<activity>[A-Z])-[^\t]*\t(?P<size>[^\t]*)\t(?P<earnings>[0-9]{1,9})")
EXPORT = """
data("ses", package = "laeken")
writeLines(paste(ses$occupation, ses$NACE1, ses$size, sprintf("%.0f", ses$earnings), sep = "\\t"), "ses.tsv")
"""


class NoData(Exception):
    """Says in one line why the job can't be written."""


def exported():
    """The fields of each record that R writes."""
    with tempfile.TemporaryDirectory() as scratch:
        try:
            subprocess.run(["Rscript", "--vanilla", "-e", EXPORT], cwd=scratch, capture_output=True, check=True)
            with open(os.path.join(scratch, "ses.tsv"), encoding="utf-8", errors="replace") as source:
                return [line.rstrip("\n").split("\t") for line in source]
        except (OSError, subprocess.CalledProcessError):
            raise NoData("laeken is left out: install R with its package laeken (apt-get install r-cran-laeken)") from None


def record(fields):
    """The codes and the earnings of an employee."""
    found = KNOWN.fullmatch("\t".join(fields))
    if found is None or found["size"] not in SIZES:
        raise NoData("laeken is left out: its data set ses has a record that isn't known here: " + " ".join(fields))
    return (found["occupation"], found["activity"], SIZES[found["size"]]), int(found["earnings"])


def records():
    """The codes and the earnings of each employee of whom nothing is missing."""
    return [record(fields) for fields in exported() if MISSING not in fields]


def write(folder):
    """Writes the files of the job, and gives the cells of its table."""
    return jobs.write_job(folder, VARIABLES, records())


def main():
    if len(sys.argv) != 2 or not os.path.isdir(sys.argv[1]):
        print("usage: laeken.py FOLDER", file=sys.stderr)
        return 2
    try:
        survey = write(sys.argv[1])
    except NoData as reason:
        print(reason, file=sys.stderr)
        return 1
    print("%d cells, %d of them primary" % (len(survey.truths), sum(level is not None for level in survey.levels)))
    return 0


if __name__ == "__main__":
    sys.exit(main())
