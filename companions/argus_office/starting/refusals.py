"""What start says where something can't be taken as it is, and how it shows bytes of a file."""

from typing import Optional


class Refusal(Exception):
    """Something of a file or of the command that can't be taken: where it is, what is there, and
    what to do, in one line.
    """

    def __init__(
        self,
        what: str,
        do: str = "",
        file: str = "",
        line: Optional[int] = None,
        column: str = ""
    ) -> None:
        place = [file] if file else []
        place += ["line %d" % line] if line is not None else []
        place += ["column " + column] if column else []
        super().__init__((", ".join(place) + ": " if place else "") + what
                         + (". " + do if do else ""))


class Difference(Exception):
    """A record of the files that start wrote isn't that of the CSV: a fault of start's own."""


def shown(text: str, most: int = 40) -> str:
    """A text of a file, fit for one line of a terminal: marks that can't be printed are escaped,
    and long ones cut.
    """
    text = "".join(
        it if it.isprintable() else it.encode("unicode_escape").decode("ascii") for it in text
    )
    return text if len(text) <= most else text[: most - 3] + "..."


def counted(count: int, noun: str, many: str = "") -> str:
    """A number with its noun, and marks between thousands: `1 record`, `1,234 records`."""
    return "{:,} {}".format(count, noun if count == 1 else many or noun + "s")
