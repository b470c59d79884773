"""Small jobs at the edge of a condition, with answers that were worked out by hand."""
from typing import Tuple

from tries import Tries, lay, new_folder, read, try_release, write

JOB = b"""<OPENMICRODATA> "m.asc"
<OPENMETADATA> "m.rda"
<SPECIFYTABLE> "A"|"V"
<SAFETYRULE> FREQ(3,30)
<SUPPRESS> MOD()
<WRITETABLE> (1,"t.csv")
<CERTIFICATE> "t.cert"
"""
TWO = JOB.replace(
    b"<SAFETY",
    b'<SPECIFYTABLE> "B"|"V"\n<APRIORI> "p.hst",1,","\n<WRITETABLE> (2,"u.csv")\n<SAFETY')
RECORDS = b"ax 10\nax 10\n" + 2 * b"bx 10\n" + b"bx 30\n" + 2 * b"cy 10\n" + b"cy 30\nby  0\n"


def try_by_hand(tries: Tries, room: str) -> None:
    """Small jobs at the edge of a condition, with answers that were worked out by hand. Code a, of
    20, needs 6 above and 3
    below; b and c, of 50 each, can fall by 5 and rise by 2. So one of them isn't enough, and each
    is a repair."""
    folder = new_folder(room)
    prior = b"a,pl,3,6\nb,b,45,52\nc,b,45,52\nTotal,p\n"
    lay(
        {
            "j.job": TWO,
            "m.rda": b"A 1 1\nB 2 1\nV 3 3\n<NUMERIC>\n",
            "m.asc": RECORDS,
            "p.hst": prior
        }, folder)
    try_release(tries, "by hand, two repairs", folder, "j.job")
    certificate = read(folder, "t.cert")
    write(folder, "p.hst", prior.replace(b"3,6", b"3,5"))
    tries.both("by hand, what is left is the level", folder, b"j.job",
               "not accepted: Repair 1 NotBelow")
    write(folder, "p.hst", prior)
    write(folder, "t.cert", certificate.replace(b"repair 2 1", b"repair 4 1"))
    tries.both("by hand, a repair that its multipliers don't speak of", folder, b"j.job",
               "not accepted: RepairCell 0")

    folder = new_folder(room)
    lay(
        {
            "j.job": JOB.replace(b"MOD()", b"RND(5)"),
            "m.rda": b"A 1 1\nV 2 3\n<NUMERIC>\n",
            "m.asc": b"a  5\nb  5\n",
            "t.csv": b"A,V\nTotal,10\na,0\nb,10\n",
            "t.cert": b"argus certificate 2\nmethod RND 5\ncells 3\nrelations 1\nend\n"
        }, folder)
    tries.both("by hand, a multiple that doesn't stay", folder, b"j.job", "not accepted: Rounded 1")

    folder = new_folder(room)
    lay(
        {
            "j.job": JOB,
            "m.rda": b"A 1 2\n<HIERARCHICAL>\n<HIERLEVELS> 1 1\n<TOTCODE> 1\nV 3 3\n<NUMERIC>\n"
        }, folder)
    for about, records, expected in (("below the total's code", b"12  5\n",
                                      "refused: record 1: UnknownCode"),
                                     ("the total", b"1   5\n", "refused: record 1: NotLeaf"),
                                     ("1,000 bytes", b"22  5".ljust(1000) + b"\r\n",
                                      "refused: certificate: Absent"),
                                     ("1,001 bytes", b"22  5".ljust(1001),
                                      "refused: record 1: TooLong")):
        write(folder, "m.asc", records)
        tries.both("by hand, a record: " + about, folder, b"j.job", expected)


# Two tables by one tree, of which one goes down to its first level: a job that rounds to 1, so that
# its tables are the true figures.
DEEP = b"""<OPENMICRODATA> "m.asc"
<OPENMETADATA> "m.rda"
<SPECIFYTABLE> "A""R"|"V"
<SPECIFYTABLE> "A"|"V"
<SAFETYRULE> FREQ(1,1)
<SUPPRESS> RND(1)
<WRITETABLE> (1,"t.csv")
<WRITETABLE> (2,"u.csv")
<CERTIFICATE> "t.cert"
<DEPTH> (2,"A",1)
"""
DEEP_FILES = {
    "m.rda": b"A 1 2\n<HIERARCHICAL>\n<HIERLEVELS> 1 1\nR 3 2\nV 5 2\n<NUMERIC>\n",
    "m.asc": b"11r1 5\n12r2 7\n21r1 2\n22r2 1\n22r1 4\n",
    "p.hst": b"11;p\n"
}
WHOLE = (
    b"A,R,V\nTotal,Total,19\nTotal,r1,11\nTotal,r2,8\n1,Total,12\n1,r1,5\n1,r2,7\n"
    b"11,Total,5\n11,r1,5\n11,r2,0\n12,Total,7\n12,r1,0\n"
    b"12,r2,7\n2,Total,7\n2,r1,6\n2,r2,1\n21,Total,2\n21,r1,2\n21,r2,0\n"
    b"22,Total,5\n22,r1,4\n22,r2,1\n"
)
UPPER = (
    b"A,R,V\nTotal,Total,19\nTotal,r1,11\nTotal,r2,8\n1,Total,12\n1,r1,5\n1,r2,7\n"
    b"2,Total,7\n2,r1,6\n2,r2,1\n")
ALL_CODES = b"A,V\nTotal,19\n1,12\n11,5\n12,7\n2,7\n21,2\n22,5\n"


def try_depths(tries: Tries, room: str) -> None:
    """Tables down to a level, with counts and figures that were worked out by hand, and faults of
    the line that says so.
    """
    folder = new_folder(room)
    certificate = b"argus certificate 2\nmethod RND 1\ncells %d\nrelations %d\nend\n"
    other = DEEP.replace(b'(2,"A",1)', b'(1,"A",1)')
    prior = DEEP.replace(b"<CERT", b'<APRIORI> "p.hst",2,";"\n<CERT')

    def expect(about: str, job: bytes, answer: str, counts: Tuple[int, int],
               tables: Tuple[bytes, bytes]) -> None:
        lay(
            {
                "j.job": job,
                "t.cert": certificate % counts,
                "t.csv": tables[0],
                "u.csv": tables[1],
                **DEEP_FILES
            }, folder)
        tries.both("depths by hand, " + about, folder, b"j.job", answer)

    upper = (WHOLE, b"A,V\nTotal,19\n1,12\n2,7\n")
    expect("no cell is new", DEEP, "accepted", (21, 16), upper)
    expect("a relation too many", DEEP, "not accepted: Counts", (21, 17), upper)
    expect("all codes", DEEP, "not accepted: Release 2 4", (21, 16), (WHOLE, ALL_CODES))
    expect("the deeper table second", other, "accepted", (13, 8), (UPPER, ALL_CODES))
    expect("a relation for a cell at the last level", other, "not accepted: Counts", (13, 14),
           (UPPER, ALL_CODES))
    expect("a wrong figure", other, "not accepted: Rounded 9", (13, 8),
           (UPPER, ALL_CODES.replace(b"11,5", b"11,6")))
    expect("a code that lies deeper", prior, "refused: apriori table 2 line 1: UnknownCode",
           (21, 16), upper)
    expect("a code that the table has", prior.replace(b"2,\"A\"", b"1,\"A\""), "accepted", (13, 8),
           (UPPER, ALL_CODES))
    for line, answer in ((b'(2,"A",0)', "BadValue"), (b'(2,"A",10)', "BadValue"),
                         (b'(2,"A")', "BadValue"), (b'(2,"A",1', "BadValue"),
                         (b'(2,A,1)', "BadValue"), (b'(0,"A",0)', "BadValue"),
                         (b'(0,"A",1)', "NoSuchTable"), (b'(3,"A",1)', "NoSuchTable"),
                         (b'(2,"R",1)', "NotInTable"), (b'(2,"a",1)', "NotInTable"), (b'(2," A",1)',
                                                                                      "NotInTable"),
                         (b'(2,"",1)', "NotInTable"), (b'(2,"A",1)\n<DEPTH> (2,"A",2)',
                                                       "Twice"), (b'( 02 ,\t"A", 009 )',
                                                                  "accepted")):
        job = DEEP.replace(b'(2,"A",1)', line)
        lines = job.count(b"\n", 0, job.rindex(b"<DEPTH>")) + 1
        answer = answer if answer == "accepted" else "refused: job line %d: %s" % (lines, answer)
        expect(line.decode(), job, answer, (21, 16), (WHOLE, ALL_CODES))
    twice = DEEP.replace(b'"u.csv"', b'"t.csv"').replace(b'"A",1', b'"R",1')
    expect("a variable of another table before one file twice", twice,
           "refused: job line 10: NotInTable", (21, 16), upper)
