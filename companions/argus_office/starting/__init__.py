"""Makes the first job of a folder from a CSV: microdata of fixed width, metadata and a job for
argus, and says what it read.

usage: start DATA.csv --value COLUMN --by COLUMN [--by COLUMN ..]

It writes DATA.asc, DATA.rda and DATA.job beside the CSV (or into --out FOLDER), overwrites nothing
without --force, and never an input. `start --help` has all words. Python and its standard library
are all that it needs.

Nothing here is proved: what argus proves begins with the microdata. What start wrote it reads back
by the metadata's positions, and compares every record with the CSV; where one differs, nothing is
left behind.

The status is 0 where the files are written, 1 for the usage line, 2 where something can't be taken
as it is, 3 where the comparison found a difference.
"""
