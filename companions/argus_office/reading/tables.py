"""What argus and cells print as rows: released tables, intervals, and the listing of the cells."""

import csv
import io
from typing import Dict, List

# A listing has the columns of the variables between the table numbers and the value.
FIRST = ["cell", "tables"]
BEHIND = "value"


def rows_of(text: str, is_strict: bool = False) -> List[List[str]]:
    """The rows of a text. Raises csv.Error where it has none."""
    return list(csv.reader(io.StringIO(text, newline=""), strict=is_strict))


class Listing:
    """The listing of a job's cells: its variables, and a row for each cell.

    `at` has the place of each column behind those of the variables, by its name. Raises ValueError
    where the rows are no listing.
    """
    def __init__(self, rows: List[List[str]]) -> None:
        self.head = rows[0] if rows else []
        self.rows = [it for it in rows[1:] if it]
        if self.head[:2] != FIRST or BEHIND not in self.head:
            raise ValueError("no listing")
        # A variable may have the name of a column behind the variables, so the last one counts.
        self.end = len(self.head) - 1 - self.head[::-1].index(BEHIND)
        self.variables = self.head[2:self.end]
        self.at: Dict[str, int] = {
            name: self.end + k
            for k, name in enumerate(self.head[self.end:])
        }

    def is_whole(self) -> bool:
        """Whether there are rows, each as wide as the head."""
        return bool(self.rows) and all(len(it) == len(self.head) for it in self.rows)

    def codes(self, row: List[str]) -> List[str]:
        """The codes of a row, one for each variable."""
        return row[2:self.end]
