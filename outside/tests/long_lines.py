"""Makes one line of a job's files long: 60,000 bytes, of one piece again and again, behind the
start of a line."""
import random
from typing import Dict, Iterator, List, Tuple

LENGTH = 60000
PIECES = (b" ", b"\t", b"1", b"9", b"x", b'"', b'""', b"|", b"| ", b'| ""', b",", b", ", b"(",
          b"( ", b"(1 ", b"<", b">", b"@", b"@ ", b"1 ", b"1,", b"1:1 ", b"FREQ(1,1)|", b"NK(1 , ",
          b"\r", b";", b".", b"-", b"\\", b"\xff", b"\x00", b"a b ")

JOB = b"""<OPENMICRODATA> "m.asc"
<OPENMETADATA> "m.rda"
<SPECIFYTABLE> "A""B"|"V"
<SPECIFYTABLE> "A""C"|"V"
<SAFETYRULE> FREQ(3,30)|NK(2,95)
<APRIORI> "p.hst",1,";"
<COST> UNIT
<STEPS> 1000
<SUPPRESS> MOD()
<WRITETABLE> (1,"t.csv")
<WRITETABLE> (2,"u.csv")
<DEPTH> (2,"A",1)
<CERTIFICATE> "t.cert"
<CONTRIBUTORS> "t.extra"
"""
METADATA = b"""A 1 2
<HIERARCHICAL>
<HIERLEVELS> 1 1
B 3 2
<HIERARCHICAL>
<HIERCODELIST> "b.hrc"
<HIERLEADSTRING> @
<TOTCODE> "All of B"
C 5 1
<CODELIST> "c.cdl"
V 6 4 9999
<NUMERIC>
<DECIMALS> 0
"""
FILES: Dict[str, bytes] = {
    "j.job":
    JOB,
    "m.rda":
    METADATA,
    "b.hrc":
    b"b\n@b1\n@b2\nd\n",
    "c.cdl":
    b"x,first\ny,second\n",
    "p.hst":
    b"1;b;c;7\n11;d;c;5\n",
    "m.asc":
    b"".join(b"%s%s%s%4d\n" % (a, b, c, 4 + k) for a in (b"11", b"12", b"21", b"22")
             for b in (b"b1", b"b2", b"d ") for c in (b"x", b"y")
             for k in range(1 if a + b == b"11b1" else 2))
}
# What a line may begin with, beside what stands in the files.
STARTS: Dict[str, Tuple[bytes, ...]] = {
    "j.job":
    (b'<SPECIFYTABLE> "A"|"V"', b"<SUPPRESS> MOD(", b"<SUPPRESS> GH(1", b"<SAFETYRULE> PQ(1,1)",
     b"<DEPTH>", b'<DEPTH> (1,"', b'<DEPTH> (1,"A",', b"<DEPTH> (1"),
    "m.rda": (b"<HIERLEVELS> ", b"<REQUEST> ", b'X "', b"X 1 1 "),
    "p.hst": (b"1;b;c;", b"1;b;pl;1;"),
    "t.cert": (b"hidden ", b"step 1 0,", b"need 1 1 above 1 ", b"world 1 above 1 "),
    "t.extra": (b"extra ", b"guard 1 above 1 1:")
}


def made(files: Dict[str, bytes], count: int) -> Iterator[Tuple[str, bytes]]:
    """The name of a file and what then stands in it: each start with each piece, and so many
    others, drawn for all files alike.
    """
    for name in sorted(STARTS):
        for start in STARTS[name]:
            for piece in PIECES:
                yield name, _with_line(files[name].split(b"\n")[:-1], 1, start, piece, b"x")
    draw, names = random.Random(3), sorted(files)
    for number in range(count):
        name = names[number % len(names)]
        lines = files[name].split(b"\n")[:-1]
        place = draw.randrange(len(lines))
        start = lines[place][:draw.randrange(len(lines[place]) + 1)]
        rest = draw.choice((b"", b"x", b")", lines[place][len(start):]))
        yield name, _with_line(lines, place, start, draw.choice(PIECES), rest)


def _with_line(lines: List[bytes], place: int, start: bytes, piece: bytes, rest: bytes) -> bytes:
    """The lines with a long one at this place."""
    long_line = start + (piece * LENGTH)[:LENGTH - len(start) - len(rest)] + rest
    return b"\n".join(lines[:place] + [long_line] + lines[place + 1:]) + b"\n"
