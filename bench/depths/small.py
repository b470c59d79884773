"""Small jobs of linked tables over one tree at several depths, said by `<DEPTH>`, and by variables that are cut apart."""

import random

RULES = ("FREQ(3,30)", "FREQ(3,30)|P(10)", "FREQ(2,50)", "FREQ(4,20)|P(20)")


class Survey:
    """Records, and tables of variables with depths. A code is a string with one byte a level, the total the empty one; a
    cell's name has a code for each variable of the survey, the total where its table doesn't span it."""

    def __init__(self, seed):
        draw = random.Random(seed)
        self.depths = (draw.choice((2, 2, 3)), draw.choice((1, 2, 2)), 1)       # of the trees of A, B and C
        self.leaves = [self._leaves(draw, depth) for depth in self.depths]
        self.tables = self._tables(draw)
        self.rules = draw.choice(RULES)
        count, values = draw.randrange(20, 60), (1, 2, 5, 8, 10, 20, 40, 90)
        self.records = [(tuple(map(draw.choice, self.leaves)), draw.choice(values)) for _ in range(count)]

    @staticmethod
    def _leaves(draw, depth):
        codes = [""]
        for _ in range(depth):
            codes = [code + digit for code in codes for digit in "123"[: draw.choice((2, 2, 3))]]
        return codes

    def _tables(self, draw):
        """Classes by C, groups by B, and mostly a third table in between; each as places of variables with depths."""
        first, second, _ = self.depths
        tables = [((0, first), (2, 1)), ((0, draw.randrange(1, first)), (1, second))]
        if draw.random() < 0.8:
            tables.append(((0, draw.randrange(1, first + 1)), (1, draw.randrange(1, second + 1))))
        draw.shuffle(tables)
        return tables

    def names(self, table):
        """The names of a table's cells, in the order of its lines."""
        rows = [("",) * 3]
        for place, depth in table:
            codes = sorted({leaf[:level] for leaf in self.codes(place) for level in range(depth + 1)})
            rows = [row[:place] + (code,) + row[place + 1 :] for row in rows for code in codes]
        return rows

    def codes(self, place):
        """The codes of a variable in the records."""
        return {codes[place] for codes, _ in self.records}

    def values(self, name):
        """The values of the records in a cell."""
        return [value for codes, value in self.records if all(code.startswith(own) for code, own in zip(codes, name))]

    def levels(self, name):
        """The protection levels of a cell above and below its value; None where no rule names it."""
        values = sorted(self.values(name), reverse=True)
        truth, found = sum(values), []
        for rule in self.rules.split("|") if values else ():
            word, numbers = rule.rstrip(")").split("(")
            numbers = list(map(int, numbers.split(",")))
            if word == "FREQ" and len(values) < numbers[0]:
                found.append(-(-numbers[1] * truth // 100))
            rest = sum(values[2:])
            if word == "P" and 100 * rest < numbers[0] * values[0]:
                found.append(-(-numbers[0] * values[0] // 100) - rest)
        if not found:
            return None
        up = max([1, *found])
        return up, min(up, truth)

    # The files of the job, said in one way or the other.

    def _column(self, place):
        return 1 + sum(self.depths[:place])

    def _metadata(self, cuts):
        """Variables over the fields: the name of each, its place and how many levels it has."""
        lines = []
        for name, place, depth in cuts:
            lines.append(f"{name} {self._column(place)} {depth}\n<HIERARCHICAL>\n<HIERLEVELS> {'1 ' * depth}\n")
        return "".join(lines) + f"V {self._column(3)} 4\n<NUMERIC>\n"

    def _files(self, cuts, spans, further):
        lines = ['<OPENMICRODATA> "m.asc"\n<OPENMETADATA> "m.rda"\n']
        for names in spans:
            lines.append("<SPECIFYTABLE> " + "".join(f'"{name}"' for name in names) + '|"V"\n')
        lines += [f"<SAFETYRULE> {self.rules}\n<SUPPRESS> MOD()\n", *further]
        lines += [f'<WRITETABLE> ({number},"t{number}.csv")\n' for number in range(1, len(spans) + 1)]
        records = "".join("".join(codes) + f"{value:4d}\n" for codes, value in self.records)
        return {"j.job": "".join(lines) + '<CERTIFICATE> "t.cert"\n', "m.rda": self._metadata(cuts), "m.asc": records}

    def _whole(self):
        return [("ABC"[place], place, depth) for place, depth in enumerate(self.depths)]

    def by_depth(self, further=(), beyond=None):
        """With the lines of depths; or each table with lines that take it so many levels beyond its trees, but at most to nine."""
        lines = []
        for number, table in enumerate(self.tables, 1):
            for place, depth in table:
                level = depth if beyond is None else min(9, self.depths[place] + beyond)
                if beyond is not None or depth < self.depths[place]:
                    lines.append(f'<DEPTH> ({number},"{"ABC"[place]}",{level})\n')
        return self._files(self._whole(), [["ABC"[place] for place, _ in table] for table in self.tables], [*lines, *further])

    def plain(self, further=()):
        """All tables with all levels, without a line of depths."""
        return self._files(self._whole(), [["ABC"[place] for place, _ in table] for table in self.tables], further)

    def apart(self):
        """The same tables, each variable with fewer levels as one of its own over the same bytes."""
        cuts = sorted({(place, depth) for table in self.tables for place, depth in table})
        spans = [[f"{'ABC'[place]}{depth}" for place, depth in table] for table in self.tables]
        return self._files([(f"{'ABC'[place]}{depth}", place, depth) for place, depth in cuts], spans, ())

    def all_at(self, level, further=()):
        """Every table with A down to a level, by lines of depths."""
        lines = [f'<DEPTH> ({number},"A",{level})\n' for number in range(1, len(self.tables) + 1)]
        return self._files(self._whole(), [["ABC"[place] for place, _ in table] for table in self.tables], [*lines, *further])

    def cut_to(self, level, further=()):
        """Every table with the field of A cut to the first levels."""
        cuts = [("A", 0, level), *self._whole()[1:]]
        return self._files(cuts, [["ABC"[place] for place, _ in table] for table in self.tables], further)
