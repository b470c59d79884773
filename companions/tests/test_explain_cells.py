"""The cells that explain adds up and judges by itself are those of the program's listing, in each
example."""

import csv
import io
import os
import unittest
from typing import Iterator, List

from support import Case, program
from explain_support import EXAMPLES, Room, asked, text_in
from argus_office.reading.book import Book, digits
from argus_office.reading.job import Job

COLUMNS = ("value", "records", "status", "rules", "up", "down", "low", "high")


def lines_by(book: Book) -> Iterator[List[str]]:
    """The lines of the listing in the columns that the book has."""
    for number, (name, cell) in enumerate(zip(book.names, book.cells)):
        codes = [
            tree.codes[place].decode("utf-8", "surrogateescape")
            for tree, place in zip(book.trees, name)
        ]
        tables = " ".join(str(it + 1) for it in book.within[number])
        rules = " ".join(cell.rules) or ("u" if cell.status == "primary" else "")
        up, down, low = (digits(it, book.decimals) for it in (cell.up, cell.down, cell.low))
        high = "" if cell.high is None else digits(cell.high, book.decimals)
        value = digits(cell.truth, book.decimals)
        yield [
            str(number), tables, *codes, value, str(cell.freq), cell.status, rules, up, down, low,
            high
        ]


class Cells(Case):
    """The listing of each example."""

    def test_listings(self) -> None:
        cells, count = program("cells"), 0
        for example in sorted(os.listdir(EXAMPLES)):
            folder = os.path.join(EXAMPLES, example)
            names = sorted(os.listdir(folder)) if os.path.isdir(folder) else []
            for job in (it for it in names if it.endswith(".job")):
                with Room(folder):
                    kept = job[:-4] + ".cells.expected"
                    text = text_in(kept) if os.path.exists(kept) else asked(cells, [job])[1]
                    rows = list(csv.reader(io.StringIO(text, newline="")))
                    if len(rows) < 2:
                        continue
                    wide = rows[0].index("value")
                    places = [rows[0].index(it, wide) for it in COLUMNS]
                    wanted = [row[:wide] + [row[it] for it in places] for row in rows[1:]]
                    found = list(lines_by(Book(Job(os.fsencode(job)))))
                self.same(found, wanted, "%s/%s" % (example, job))
                count += 1
        self.wants(count > 30, "only %d listings" % count)


if __name__ == "__main__":
    unittest.main()
