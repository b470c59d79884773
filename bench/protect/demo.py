"""The files of a made survey: twelve regions under three provinces, four industries by letter and digit, four sizes.

The same seed makes the same files. Values and codes are drawn by a linear congruential generator of 64 bits.
"""

JOB = """<OPENMICRODATA> "demo.asc"
<OPENMETADATA> "demo.rda"
<SPECIFYTABLE> "Region""Industry"|"Value"
<SPECIFYTABLE> "Region""Size"|"Value"
<SAFETYRULE> FREQ(3,30)|P(10)
<COST> VALUE
<READMICRODATA>
<SUPPRESS> MOD()
<WRITETABLE> (1,"industry.csv")
<WRITETABLE> (2,"size.csv")
<CERTIFICATE> "demo.cert"
"""

METADATA = """Region 1 3
<RECODEABLE>
<HIERARCHICAL>
<HIERCODELIST> "region.hrc"
<HIERLEADSTRING> @
Industry 4 2
<RECODEABLE>
<HIERARCHICAL>
<HIERLEVELS> 1 1
Size 6 2
<RECODEABLE>
Value 8 7
<NUMERIC>
"""


def regions():
    lines = []
    for province in range(3):
        lines.append("P%d" % (province + 1))
        lines += ["@R%02d" % (4 * province + k + 1) for k in range(4)]
    return "\n".join(lines) + "\n"


def records(seed, count):
    state = seed

    def draw(m):
        nonlocal state
        state = (state * 6364136223846793005 + 1442695040888963407) % 2**64
        return (state >> 33) % m

    lines = []
    for _ in range(count):
        region = "R%02d" % (1 + draw(12))
        industry = "ABCD"[draw(4)] + str(1 + draw(5))
        size = "S%d" % (1 + draw(4))
        value = 1 + draw(10000)
        if draw(20) == 0:
            value *= 50
        lines.append("%s%s%s%7d" % (region, industry, size, value))
    return "\n".join(lines) + "\n"


def files(seed, count):
    return {"demo.job": JOB, "demo.rda": METADATA, "region.hrc": regions(), "demo.asc": records(seed, count)}
