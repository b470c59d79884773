"""What every part of a page has at hand."""

from typing import Dict

from argus_office.paging.release import Release
from argus_office.paging.texts import safe
from argus_office.paging.titles import Title


class Part:
    """A part of the page of a release."""

    def __init__(self, release: Release, title: Title = Title()) -> None:
        self.given = title
        self.release, self.book, self.show = release, release.book, release.amounts.show
        self.labels: Dict[str, Dict[str, str]] = {}
        if not release.is_public:
            self.labels = {it: release.metadata.labels(it) for it in self.book.variables}

    def labelled(self, variable: str, code: str) -> str:
        """A code, with its label where it has one."""
        label = self.labels.get(variable, {}).get(code)
        tail = ' <span class="label">%s</span>' % safe(label) if label else ""
        return "<bdi>%s</bdi>%s" % (safe(code) or "(empty)", tail)
