"""Makes small jobs of every kind, with all their files, from a seed; some have a fault in an input.
Those of every third seed take tables down to a level."""
import random
from typing import Dict, List, Tuple

Files = Dict[str, bytes]


class Made:
    """One made job: `files` has the bytes of every file, `job.job` among them."""
    def __init__(self, seed: int) -> None:
        self.draw, self.deep = random.Random(seed), seed % 3 == 0
        self.files: Files = {}
        self.variables: List[Tuple[str, int, int,
                                   List[bytes]]] = []  # name, first byte, width, codes of records
        self.metadata: List[bytes] = []
        self.at = 1
        for place in range(self.draw.choice((1, 2, 2, 2, 2, 3))):
            self._variable(b"ABCD"[place:place + 1])
        self._numbers()
        self._records()
        self._tables()
        self._job()
        self._spell()

    def _maybe(self, share: float) -> bool:
        return self.draw.random() < share

    def _variable(self, name: bytes) -> None:
        """A spanning variable: flat with or without a code list, with levels, or with a hierarchy
        file.
        """
        kinds = ("flat", "listed", "levels", "levels", "hierarchy", "hierarchy")
        draw, kind = self.draw, self.draw.choice(kinds if self.deep else kinds[:1] + kinds)
        total, keywords, missing = b"Total", [], b""
        if self._maybe(0.2):
            total = draw.choice((b"T", b"All codes"))
            keywords.append(b'<TOTCODE> "%s"' % total)
        if kind == "levels":
            widths = draw.choice(([1, 1], [1, 1], [1, 1], [2, 1], [1, 1, 1]))
            codes = sorted({
                b"".join(b"%d" % draw.randrange(1, 3) for _ in range(sum(widths)))
                for _ in range(draw.randrange(1, 5))
            })
            width = sum(widths)
            keywords += [
                b"<HIERARCHICAL>",
                b"<HIERLEVELS> %s" % b" ".join(b"%d" % w for w in widths + [0] * draw.randrange(3))
            ]
        elif kind == "hierarchy":
            lead, width, codes, text = draw.choice((b"@", b"--")), 3, [], []
            for upper in range(draw.randrange(1, 3)):
                text.append(b"%c" % (97 + upper))
                below = draw.randrange(0, 3)
                codes += [b"%c%d" % (97 + upper, k) for k in range(below)] if below else [text[-1]]
                text += [lead + b"%c%d" % (97 + upper, k) for k in range(below)]
            keywords += [
                b"<HIERARCHICAL>",
                b'<HIERCODELIST> "%s.hrc"' % name,
                b"<HIERLEADSTRING> %s" % lead
            ]
            if self._maybe(0.3):
                missing = b" 9"
                codes.append(b"9")
            self.files[name.decode() + ".hrc"] = b"\n".join(text) + b"\n"
        else:
            width = draw.randrange(1, 4)
            pool = [b"x", b"y", b"z", b"w", b'"', b",", b"q'"][:draw.choice((2, 3, 3, 4, 7))]
            codes = [code for code in pool if len(code) <= width]
            if kind == "listed":
                listed = draw.sample(codes, draw.randrange(
                    1,
                    len(codes) + 1)) + ([b"n"] if self._maybe(0.3) else [])
                self.files[name.decode() + ".cdl"] = b"".join(code + b",label\n" for code in listed)
                keywords.append(b'<CODELIST> "%s.cdl"' % name)
        self.metadata.append(b"%s %d %d%s" % (name, self.at, width, missing))
        self.metadata += [b"<RECODEABLE>"] + keywords
        self.variables.append((name.decode(), self.at, width, codes))
        self.at += width + draw.randrange(2)

    def _numbers(self) -> None:
        """The response and perhaps a weight."""
        self.decimals = self.draw.choice((0, 0, 0, 1, 2))
        self.response_at = self.at
        self.metadata += [
            b"V %d 8 99999999" % self.at, b"<NUMERIC>",
            b"<DECIMALS> %d" % self.decimals
        ]
        self.at += 8
        self.weight_decimals = self.draw.choice((0, 1)) if self._maybe(0.25) else None
        if self.weight_decimals is not None:
            self.metadata += [
                b"W %d 4" % self.at, b"<NUMERIC>", b"<WEIGHT>",
                b"<DECIMALS> %d" % self.weight_decimals
            ]
            self.at += 4

    def _number(self, most: int, decimals: int) -> bytes:
        whole = b"%d" % self.draw.randrange(most)
        return whole + b".%d" % self.draw.randrange(10**self.draw.randrange(
            1, decimals + 1)) if decimals and self._maybe(0.5) else whole

    def _records(self) -> None:
        draw, lines = self.draw, []
        for _ in range(draw.choice((0, 3, 8, 15, 30))):
            line = bytearray(b" " * (self.at - 1))
            for _, first, width, codes in self.variables:
                code = draw.choice(codes)
                line[first - 1:first - 1 +
                     width] = code.ljust(width) if self._maybe(0.8) else code.rjust(width)
            value = self._number(draw.choice((1, 10, 100, 100, 5000)), self.decimals)
            value = draw.choice((b"99999999", b"", value)) if self._maybe(0.05) else value
            line[self.response_at - 1:self.response_at + 7] = value.rjust(8)
            if self.weight_decimals is not None:
                line[self.response_at +
                     7:] = (b"%d" % draw.randrange(1, 9) +
                            (b".5" if self.weight_decimals and self._maybe(0.3) else b"")).ljust(4)
            lines.append(bytes(line))
        self.files["m.asc"] = b"".join(line + b"\n" for line in lines)

    def _tables(self) -> None:
        draw, names = self.draw, [name for name, _, _, _ in self.variables]
        self.tables: List[List[str]] = []
        if self.deep:
            self.tables = [
                draw.sample(names, draw.randrange(1,
                                                  min(len(names), 2) + 1))
                for _ in range(draw.choice((1, 2, 2, 3)))
            ]
            return
        for _ in range(draw.choice((1, 1, 1, 2)) if len(names) > 1 else 1):
            most = min(len(names), 2 if self._maybe(0.8) else 3)
            self.tables.append(
                draw.sample(names, draw.randrange(1 if len(names) < 2 else min(2, most), most + 1)))

    def _depths(self) -> List[bytes]:
        """How deep the tables go: most lines are good ones."""
        draw, lines = self.draw, []
        for number, names in enumerate(self.tables, 1):
            for name in names:
                if self._maybe(0.6):
                    lines.append(b'<DEPTH> (%d,"%s",%d)' %
                                 (number, name.encode(), draw.choice((1, 1, 1, 2, 2, 3, 9))))
        if self._maybe(0.15):
            odd = (b"(0,%s,1)", b"(%d,%%s,1)" % (len(self.tables) + 1), b"(1,%s,0)", b"(1,%s,10)",
                   b'(1,"N",2)', b"(001 , %s\t,\t02 )", b"(1 %s,1)", b"(1,%s)", b"1,%s,1",
                   b'(1,"",1)', b"(1,%s,1", b"(%d,%%s,1)" % 10**60, b"(1,%%s,%d)" % 10**60)
            form, quoted = draw.choice(odd), b'"%s"' % draw.choice(self.variables)[0].encode()
            lines += [b"<DEPTH> " + (form % quoted if b"%s" in form else form)] * draw.choice(
                (1, 1, 2))
        return lines

    def _prior(self, table: int) -> bytes:
        """A priori lines for the table, most of them good ones."""
        draw, lines = self.draw, []
        codes = {name: codes + [b"Total"] for name, _, _, codes in self.variables}
        if self.deep:  # codes above those of the records: where there are levels, their first byte
            codes = {name: own + [code[:1] for code in own] for name, own in codes.items()}
        for _ in range(draw.randrange(1, 5)):
            fields = [draw.choice(codes[name]) for name in self.tables[table]]
            word = draw.choice((b"s", b"p", b"c", b"pl", b"b", b"u"))
            more = {
                b"c": [b"%d" % draw.randrange(1, 300)],
                b"pl": [b"%d" % draw.randrange(20),
                        b"%d" % draw.randrange(1, 20)],
                b"b": [b"%d" % draw.choice((0, 0, 1, 5)),
                       b"%d" % draw.choice((90, 2000, 10**6))]
            }.get(word, [])
            lines.append(b";".join(fields + [word] + more))
        return b"\n".join(lines)

    def _rules(self) -> List[bytes]:
        draw = self.draw
        pool = [
            b"FREQ(%d,%d)" % (draw.randrange(1, 4), draw.randrange(0, 60)),
            b"NK(%d,%d)" % (draw.randrange(1, 4), draw.randrange(60, 100)),
            b"P(%d)" % draw.randrange(1, 25),
            b"P(%d,1)" % draw.randrange(1, 25),
            b"PQ(%d,%d)" % (draw.randrange(1, 40), draw.randrange(1, 120)),
            b"ZERO(%d)" % draw.randrange(1, 9)
        ]
        rules = draw.sample(pool, draw.choice((1, 1, 1, 2)))
        rules += [b"MAN(%d)" % draw.randrange(50)] if self._maybe(0.3) else []
        return rules + ([b"WGT(%d)" %
                         (self._maybe(0.8))] if self.weight_decimals is not None else [])

    def _job(self) -> None:
        draw = self.draw
        lines = [b'<OPENMICRODATA> "m.asc"', b'<OPENMETADATA> "m.rda"']
        lines += [
            b"<SPECIFYTABLE> " + b"".join(b'"%s"' % name.encode() for name in names) + b'|"V"'
            for names in self.tables
        ]
        method = draw.choice(
            (b"MOD()", b"MOD()", b"MOD()", b"GH(1)", b"GH(2)", b"GH(3)", b"RND(%d)" % draw.choice(
                (1, 2, 3, 5, 10))))
        lines += [
            b"<SAFETYRULE> " + b"|".join(self._rules()), b"<READMICRODATA>", b"<SUPPRESS> " + method
        ]
        for table in range(len(self.tables)):
            lines.append(b'<WRITETABLE> (%d,"t%d.csv")' % (table + 1, table + 1))
            if self._maybe(0.35):
                lines.append(b'<APRIORI> "p%d.hst",%d,";"' % (table + 1, table + 1))
                self.files["p%d.hst" % (table + 1)] = self._prior(table)
        lines.append(b'<CERTIFICATE> "c.cert"')
        if not method.startswith(b"RND") and self._maybe(0.35):
            lines.append(b'<CONTRIBUTORS> "c.extra"')
        if self._maybe(0.3):
            lines.append(b"<COST> " + draw.choice((b"VALUE", b"FREQ", b"UNIT")))
        if self.deep:
            lines += self._depths()
            if self._maybe(0.3):
                draw.shuffle(lines)
        lines += [b"<STEPS> 100",
                  b"<NODES> 500"]  # a job that needs more is undecided, and isn't compared
        self.files["m.rda"] = b"\n".join(self.metadata) + b"\n"
        self.files["job.job"] = b"\n".join(lines) + b"\n"

    def _spell(self) -> None:
        """Other spellings that mean the same, and in some jobs one damaged byte of an input."""
        draw = self.draw
        for name in sorted(self.files):
            if self._maybe(0.1):
                self.files[name] = self.files[name].replace(b"\n", b"\r\n")
            if self._maybe(0.1):
                self.files[name] = self.files[name].rstrip(b"\r\n")
        if self._maybe(0.2):
            self.files["job.job"] = b"// a comment\n \t\n" + self.files["job.job"].replace(
                b"> ", b">\t ").replace(b"COST", b"Cost")
        if self._maybe(0.25):
            name = draw.choice(sorted(self.files))
            self.files[name] = damaged(draw, self.files[name])


def damaged(draw: random.Random, whole: bytes) -> bytes:
    """The bytes with one damage: a byte changed, left out or doubled, a line left out, doubled or
    moved, or all cut off.
    """
    if not whole:
        return b"x"
    place, lines = draw.randrange(len(whole)), whole.split(b"\n")
    first, second = draw.randrange(len(lines)), draw.randrange(len(lines))
    rest = lines[:first] + lines[first + 1:]
    kind = draw.randrange(7)
    if kind < 4:
        odd = draw.choice(b'0123456789 ,:"|<>ABTotal-.x@\n')
        other = bytes([odd if draw.random() < 0.8 else draw.randrange(256)])
        middle = (other, b"", 2 * whole[place:place + 1], b"")[kind]
        return whole[:place] + middle + (b"" if kind == 3 else whole[place + 1:])
    moved = rest[:second] + [lines[first]] + rest[second:]
    doubled = lines[:first] + [lines[first]] + lines[first:]
    return b"\n".join((rest, moved, doubled)[kind - 4])


def changed_number(draw: random.Random, whole: bytes) -> bytes:
    """The bytes with one whole number in them one greater or less, or one at an end of what 32 or
    128 bits hold.
    """
    spans, place = [], 0
    while place < len(whole):
        end = place
        while end < len(whole) and whole[end:end + 1].isdigit():
            end += 1
        if end > place:
            spans.append((place, end))
        place = end + 1
    if not spans:
        return damaged(draw, whole)
    first, end = draw.choice(spans)
    number = max(0, int(whole[first:end]) + draw.choice((-1, 1, 1, 2, -3, 5, -5, 10)))
    if draw.random() < 0.1:
        number = draw.choice((0, 1, 1 << 32, 1 << 126, (1 << 127) - 1, 1 << 127))
    return whole[:first] + (b"%0*d" %
                            (end - first, number) if whole[first:first + 1] == b"0" else b"%d" %
                            number) + whole[end:]


def first_version(certificate: bytes) -> bytes:
    """The same certificate in version 1: its complete tables have a number for each hidden cell."""
    lines, hidden = certificate.replace(b"certificate 2", b"certificate 1", 1).split(b"\n"), []
    for place, line in enumerate(lines):
        words = line.split(b" ")
        if words[0] == b"hidden":
            hidden = words[1:]
        elif words[0] == b"world":
            pairs = [word.partition(b":") for word in words[4:]]
            moves = {cell: by for cell, _, by in pairs}
            lines[place] = b" ".join(words[:4] + [moves.get(cell, b"0") for cell in hidden])
    return b"\n".join(lines)
