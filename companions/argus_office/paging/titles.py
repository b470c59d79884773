"""The words of --title: the title of a page, and the unit, the period and the date of its figures.
argus knows none of them."""

from typing import List, NamedTuple, Optional, Tuple

BAR = "|"


class Title(NamedTuple):
    """Each part as it was given, or empty."""

    text: str = ""
    unit: str = ""
    period: str = ""
    date: str = ""

    def facts(self) -> List[Tuple[str, str]]:
        """Unit, period and date with their names, without those that are empty."""
        named = (("Unit", self.unit), ("Period", self.period), ("Date", self.date))
        return [it for it in named if it[1]]


def title_of(text: str) -> Optional[Title]:
    """The title that a text with bars is; None where it has more parts than there are, or none."""
    parts = [it.strip() for it in text.split(BAR)]
    return Title(*parts) if len(parts) <= len(Title._fields) and any(parts) else None
