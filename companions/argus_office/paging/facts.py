"""The list of the hidden cells and the facts of each, of which the page has the frame alone: the
page's script draws them from its data when they are looked at or printed."""

from argus_office.paging.part import Part

COLUMNS = ("number", "cell", "hidden by", "true value", "records", "readers can tell",
           "must be left open", "room")
# Columns of the list that hold numbers: they and their heads stand at the right.
KIND = {k: ' class="n"' for k in (0, 3, 4, 7)}
# The columns that are empty without the listing of the cells, and those without the intervals.
OF_FACTS, OF_RANGES = {3, 4, 6, 7}, {5, 7}


class Facts(Part):
    """The list of the hidden cells, and the place of the facts of each."""

    def listed(self) -> str:
        """The list of all hidden cells, the sensitive ones that are protected most narrowly first,
        without its lines."""
        release = self.release
        if not release.hidden:
            return ""
        lacking = (set() if release.facts else OF_FACTS) | (set() if release.ranges else OF_RANGES)
        heads = "".join(
            '<th scope="col" data-k="%d"%s>%s</th>' % (k, KIND.get(k, ""), it)
            for k, it in enumerate(COLUMNS) if k not in lacking)
        lines = [
            '<section class="on-demand" aria-labelledby="listed"><h2 id="listed">Every hidden cell'
            "</h2>",
            '<p class="small screen"><label><input type="checkbox" id="demand"> <span>Print this '
            "list and the facts of every hidden cell too</span></label></p>",
        ]
        if release.facts and release.ranges:
            lines.append(
                '<p class="small">Room is how far the tables leave a sensitive cell open at its '
                "narrower side, as a multiple of its protection level there: at 1.0 it is just "
                "protected.</p>")
        lines.append(
            "<noscript><p>The list of the hidden cells and the facts of each are drawn by the "
            "page\u2019s script, which doesn\u2019t run here. The tables stand above.</p>"
            "</noscript>")
        lines.append(
            '<div class="scroll tall screen-or-demand"><table class="plain sortable"><thead><tr>%s'
            "</tr></thead><tbody></tbody></table></div></section>" % heads)
        return "\n".join(lines)

    def all_facts(self) -> str:
        """The place of the facts of all hidden cells, for paper."""
        if not self.release.hidden:
            return '<div class="facts-of-all"></div>'
        return (
            '<section class="facts-of-all on-demand" id="all-facts" hidden><h2>The facts of every '
            "hidden cell</h2></section>"
        )
