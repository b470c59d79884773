"""The tables of a page, as plain as a reader without the page's script needs them: the script knows
each cell's number by its place."""

from typing import Dict, List, NamedTuple, Optional, Sequence

from argus_office.paging.part import Part
from argus_office.paging.tables import Table
from argus_office.paging.texts import product, safe, some

# Lengths on paper, in tenths of a point: a line of a landscape page of A4, a character, the space
# between groups of digits, and what a column takes beside its characters.
PAPER, CHARACTER, SPACE, BESIDE = 7790, 48, 15, 120
# The head of a row goes over so many characters at most, and that of a column over so many before
# it is broken.
MOST_OF_ROW, MOST_OF_HEAD = 29, 14
# The mark of a hidden cell is set small: it takes as much as so many characters.
MARK = 6
# Tables of more rows begin on a page of their own, and so does each of their pieces.
ROWS_BESIDE = 12
# A page of more cells has a field in which one is looked for.
CELLS_BESIDE = 1000


def cut(columns: List[int], first: int) -> List[int]:
    """Where columns of such widths are cut so that each piece fits on paper behind the heads of the
    rows: no more pieces than it takes, and all about as wide."""
    room = max(PAPER - first, 1)
    fewest = len(filled(columns, room))
    evenly = min(room, max(sum(columns) // fewest, 1))
    tried = (filled(columns, wide) for wide in [*range(evenly, room, 50), room])
    return next(it for it in tried if len(it) == fewest)


def filled(columns: List[int], room: int) -> List[int]:
    """Where columns of such widths are cut if each piece takes as many as there is room for."""
    starts: List[int] = []
    left = 0
    for k, wide in enumerate(columns):
        if not starts or wide > left:
            starts.append(k)
            left = room
        left -= wide
    return starts


class Layout(NamedTuple):
    """How a table is laid out: the places of its variables that go down, across (None: there is one
    variable), and those of which each code has a sheet of its own."""

    down: int
    across: Optional[int]
    others: List[int]


def layout_of(table: Table) -> Layout:
    """The longest variable goes down, the next across."""
    order = sorted(range(len(table.variables)), key=lambda k: -len(table.codes[k]))
    down, across = order[0], order[1] if len(order) > 1 else None
    others = [k for k in range(len(table.variables)) if k not in (down, across)]
    return Layout(down, across, others)


class Sheets(Part):
    """The tables: each a sheet, or one for each code of the variables that go neither down nor
    across."""

    def controls(self) -> str:
        """What stands above the tables: the search, what hidden cells show, or how to read a
        rounded figure."""
        search = ""
        if len(self.book.names) > CELLS_BESIDE:
            search = (
                '<div class="find screen"><label for="find">Find a cell</label> <input id="find" '
                'type="search" placeholder="its codes, or its number" autocomplete="off">'
                '<ul id="found" aria-live="polite"></ul></div>'
            )
        return search + self.view()

    def view(self) -> str:
        """What hidden cells show, or how to read a rounded figure."""
        release = self.release
        if release.job.base and release.facts and not release.is_public:
            return (
                '<p class="small">The small number says how far a shown figure lies above or below '
                "the true one. A sensitive cell has a frame.</p>"
            )
        if release.is_public or not release.hidden or not release.facts:
            return ""
        return (
            '<fieldset class="view screen"><legend>Hidden cells show</legend><label><input '
            'type="radio" name="view" value="x" checked> <span>x, as published</span></label>'
            '<label><input type="radio" name="view" value="v"> <span>their true values</span>'
            '</label></fieldset><p class="world screen" id="world" role="status" hidden>'
            '<span></span> <button type="button">Back to the release</button></p>'
        )

    def table(self, table: Table) -> str:
        """A table with its heading."""
        layout = layout_of(table)
        rows = len(table.codes[layout.down])
        kind, number = "table" + " own" * (rows > ROWS_BESIDE), table.number
        count, said = len(table.shown), "%d cells, rounded"
        if self.release.job.base is None:
            hidden = sum(1 for it in table.shown.values() if it == "x")
            said = "%%d cells, %d hidden" % hidden
        unit = " · unit: %s" % safe(self.given.unit) if self.given.unit else ""
        lines = [
            '<section class="%s" data-table="%d" aria-labelledby="table%d"><h2 id="table%d">%s by '
            "%s</h2>" % (kind, number, number, number, safe(table.response),
                         safe(some(table.spans()))),
            '<p class="sub">Table %d · <code>%s</code> · %s%s</p>' % (
                number, safe(table.name), said % count, unit),
            self.tools(table, layout.others),
        ]
        pieces = self.pieces(table, layout)
        for sheet in product([table.codes[k] for k in layout.others]):
            lines.append(self.sheet(table, layout, sheet, pieces))
        return "\n".join([*lines, "</section>"])

    def tools(self, table: Table, others: List[int]) -> str:
        """Which sheet is shown, and whether all codes are unfolded."""
        folds = any(
            self.book.depth(variable, code) > 1
            for variable, codes in zip(table.variables, table.codes) for code in codes)
        said = "".join(self.chooser(table, k) for k in others)
        if folds:
            said += (
                '<button type="button" data-all="open">Unfold all</button>'
                '<button type="button" data-all="fold">Fold all</button>'
            )
        return '<div class="tools screen">%s</div>' % said if said else ""

    def chooser(self, table: Table, k: int) -> str:
        """The choice of a code of a variable that has a sheet for each of its codes."""
        count = dict.fromkeys(table.codes[k], 0)
        for place, text in table.shown.items():
            count[place[k]] += text == "x"
        options = "".join(
            '<option value="%d">%s%s</option>' % (
                at, safe(code), " (%d x)" % count[code] if count[code] else "")
            for at, code in enumerate(table.codes[k]))
        variable = safe(table.variables[k])
        return "<label>%s <select data-other>%s</select></label>" % (variable, options)

    def sheet(self, table: Table, layout: Layout, sheet: Sequence[str], pieces: str) -> str:
        """A table of rows and columns, for a code of each of the other variables."""
        at = [str(table.codes[k].index(code)) for k, code in zip(layout.others, sheet)]
        name = " · ".join(
            "%s %s" % (table.variables[k], code) for k, code in zip(layout.others, sheet))
        label = "%s by %s" % (table.response, some(table.spans())) + (", " + name if name else "")
        lines = [
            '<div class="scroll sheet" data-sheet="%s"><table class="cells"%s aria-label="%s">' % (
                " ".join(at), pieces, safe(label))]
        if name:
            lines.append("<caption>%s</caption>" % safe(name))
        lines.append(self.head_of_sheet(table, layout))
        variable = table.variables[layout.down]
        for code in table.codes[layout.down]:
            row = [self.entry(it) for it in self.cells_of_row(table, layout, sheet, code)]
            depth, head = min(self.book.depth(variable, code), 9), layout.down
            lines.append('<tr class="d%d">%s%s</tr>' % (
                depth, self.heading(table, head, code, "row"), "".join(row)))
        return "\n".join([*lines, "</tbody></table></div>"])

    def head_of_sheet(self, table: Table, layout: Layout) -> str:
        """The row of heads of a sheet's columns."""
        corner = safe(table.variables[layout.down])
        heads = '<th scope="col">%s</th>' % safe(table.response)
        if layout.across is not None:
            k = layout.across
            corner = '<span class="down">%s</span><span class="across">%s</span>' % (
                corner, safe(table.variables[k]))
            heads = "".join(self.heading(table, k, it, "col") for it in table.codes[k])
        return '<thead><tr><th class="corner" scope="col">%s</th>%s</tr></thead><tbody>' % (
            corner, heads)

    def cells_of_row(
        self, table: Table, layout: Layout, sheet: Sequence[str], code: str
    ) -> List[int]:
        """The cells of a row, in order."""
        place: List[str] = [""] * len(table.variables)
        place[layout.down] = code
        for k, other in zip(layout.others, sheet):
            place[k] = other
        if layout.across is None:
            return [self.book.at(table, place)]
        found = []
        for column in table.codes[layout.across]:
            place[layout.across] = column
            found.append(self.book.at(table, place))
        return found

    def order(self, table: Table) -> List[int]:
        """The cells of a table in the order in which they stand on the page."""
        layout, found = layout_of(table), []
        for sheet in product([table.codes[k] for k in layout.others]):
            for code in table.codes[layout.down]:
                found += self.cells_of_row(table, layout, sheet, code)
        return found

    def pieces(self, table: Table, layout: Layout) -> str:
        """Where a table that is wider than a page is cut on paper, as a mark for the page's script:
        the first column of each piece."""
        if layout.across is None:
            return ""
        across, down = layout.across, layout.down
        wide: Dict[str, int] = {}
        for code in table.codes[across]:
            words = map(len, self.words_of_code(table.variables[across], code))
            wide[code] = min(max(words), MOST_OF_HEAD) * CHARACTER
        for place, text in table.shown.items():
            digits = len(text) if text != "x" else MARK
            taken = digits * CHARACTER + digits // 3 * SPACE
            wide[place[across]] = max(wide[place[across]], taken)
        variable = table.variables[down]
        first = max(
            len(" ".join(self.words_of_code(variable, it))) + 2 * self.book.depth(variable, it)
            for it in table.codes[down])
        starts = cut(
            [it + BESIDE for it in wide.values()], min(first, MOST_OF_ROW) * CHARACTER + BESIDE)
        return ' data-pieces="%s"' % " ".join(map(str, starts)) if len(starts) > 1 else ""

    def words_of_code(self, variable: str, code: str) -> List[str]:
        """A code and the words of its label."""
        return [code, *self.labels.get(variable, {}).get(code, "").split()]

    def heading(self, table: Table, k: int, code: str, scope: str) -> str:
        """The head of a row or a column: its code, and which row or column of the table it is
        below."""
        variable = table.variables[k]
        above = self.book.parents[variable][code]
        parent = ""
        if above is not None:
            parent = ' data-parent="%d"' % self.book.place(table, k, above)
        return '<th scope="%s" class="d%d"%s>%s</th>' % (
            scope, min(self.book.depth(variable, code), 9), parent, self.labelled(variable, code))

    def entry(self, cell: int) -> str:
        """A cell as it stands in a table."""
        text, release = self.book.text[cell], self.release
        if text == "x":
            if release.is_public:
                return '<td class="x">x</td>'
            return '<td class="x %s"><b>x</b><small>%s</small></td>' % (
                release.kind(cell), safe(release.mark(cell)))
        units = release.amounts.units(text)
        shown = self.show(units)
        if release.is_public or not release.facts:
            return "<td>%s</td>" % shown
        fact = release.facts[cell]
        if release.job.base is None:
            kind = ' class="empty"' if fact.records == 0 else ""
            return "<td%s>%s</td>" % (kind, shown)
        off = units - fact.value
        kind = "off sensitive" if fact.status == "primary" else "off"
        return '<td class="%s">%s<small>%s</small></td>' % (
            kind, shown, self.show(off, True) if off else "=")
