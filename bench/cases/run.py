#!/usr/bin/env python3
"""Tries `cases/try` itself: on cases that are as they say, on cases that say something else, and on files that are no cases.

Each row is a file of cases, the status that is wanted and a text that has to stand in what is said. The last line says how many
differ; the status is 0 only where none does. It wants the programs in out/, and takes five seconds.
"""

import os
import re
import subprocess
import sys
import tempfile
from typing import List, Tuple

HERE = os.path.dirname(os.path.realpath(__file__))
TRY = os.path.join(HERE, "..", "..", "cases", "try")

RUN = "given one_table\nask argus run r.job\n"
SAID = "says 0 released: 7 records, 0 skipped, 0 passed over, 3 cells, 0 primary, 0 hidden\n"
PUTS = "puts t.cert as one_table_released\nputs t.csv as one_table_released\n"
TABLE = "puts t.cert as one_table_released\nputs t.csv\n"
SHORT = "says 2 refused: record 7: Short\n"

ROWS: List[Tuple[str, int, str]] = [
    # cases that are as they say
    (RUN + SAID + PUTS, 0, "cases: 1 tried, 0 differ"),
    ("# a comment\n\n== A section\n" + RUN + "\n" + SAID + PUTS + "\n\n" + SAID + PUTS, 0, "cases: 2 tried, 0 differ"),
    (RUN + SAID + TABLE + "| A,V\n| Total,150\n| a,60\n| b,90\n", 0, "1 tried, 0 differ"),
    (RUN + SAID + TABLE + "| A,V\n^ Total,\n...\n", 0, "1 tried, 0 differ"),
    (RUN + SAID + TABLE + "...\n| b,90\n", 0, "1 tried, 0 differ"),
    (RUN + SAID + PUTS + "ask argus check r.job\nsays 0 accepted\n", 0, "1 tried, 0 differ"),
    (RUN + "cut m.asc within 7\n" + SHORT, 0, "cases: 3 tried, 0 differ"),
    (RUN + "file m.asc\n% a {1..3}0\n% b {20,20,20,30}\n" + SAID + PUTS, 0, "1 tried, 0 differ"),
    (RUN + "edit m.asc\n- b 30\n+ b 3\\\n" + SHORT, 0, "1 tried, 0 differ"),
    (RUN + "without m.asc\nsays 2 refused: microdata: Absent\n", 0, "1 tried, 0 differ"),
    ('ask cells ""\nsays 1\n^ usage: cells \n', 0, "1 tried, 0 differ"),
    ("ask cells r.job\nwarns 2 refused: job: Absent\n", 0, "1 tried, 0 differ"),
    # cases that say something else: the status, what is said, on which output, and what is put
    (RUN + SAID.replace("says 0", "says 1") + PUTS, 1, "status 0 in place of 1"),
    (RUN + SAID.replace("3 cells", "4 cells") + PUTS, 1, "says otherwise than wanted"),
    (RUN + SAID.replace("says", "warns") + PUTS, 1, "warns otherwise than wanted"),
    (RUN + "says 0\n" + PUTS, 1, "says otherwise than wanted"),
    (RUN + SAID + "| one more line\n" + PUTS, 1, "says otherwise than wanted"),
    (RUN + SAID + "puts t.cert as one_table_released\n", 1, "t.csv is put"),
    (RUN + SAID + PUTS + "puts u.csv\n...\n", 1, "u.csv isn't there"),
    (RUN + SAID + TABLE + "| A,V\n| Total,150\n| a,60\n| b,91\n", 1, "t.csv is otherwise than wanted"),
    (RUN + SAID + TABLE + "| A,V\n| Total,150\n| a,60\n| b,90\\\n", 1, "t.csv is otherwise than wanted"),
    (RUN + SAID + TABLE + "| A,V\n| Total,150\n| a,60\n", 1, "t.csv is otherwise than wanted"),
    (RUN + SAID + TABLE + "| A,V\n^ total,\n...\n", 1, "t.csv is otherwise than wanted"),
    (RUN + "file t.csv\n| old\n" + SAID + "puts t.cert as one_table_released\n", 1, "t.csv is changed"),
    (RUN + SAID + PUTS + "ask argus check r.job\nsays 3 accepted\n", 1, "asked argus check r.job"),
    (RUN + "cut m.asc behind 7\n" + SHORT, 1, "cases: 1 tried, 1 differ"),
    (RUN + "cut m.asc within 7\nsays 2 refused: record 6: Short\n", 1, "cases: 3 tried, 3 differ"),
    # files that are no cases
    ("", 1, "cases: 0 tried, 0 differ"),
    ("# a comment alone\n", 1, "cases: 0 tried"),
    ("== A section\n" + RUN, 1, "the section has no cases"),
    ("== A section\n" + RUN + "\n== Another\n" + RUN + "\n" + SAID + PUTS, 1, "the section before this one has no cases"),
    ("== A section\n" + RUN + SAID + "\n" + SAID + PUTS, 1, "the lines of a section have no answers"),
    (RUN, 1, "a case asks, and has an answer"),
    (RUN + SAID + PUTS + "\n" + SAID + PUTS, 1, "7: an answer is a status and a text"),
    (SAID, 1, "an answer is a status and a text"),
    (RUN + "says yes\n", 1, "an answer is a status and a text"),
    (RUN + "puts t.csv\n", 1, "a file is put once, after the answer"),
    (RUN + SAID + PUTS + "puts t.csv\n", 1, "a file is put once, after the answer"),
    ("given nothing\n", 1, "cannot read given/nothing"),
    (RUN + SAID + "puts t.con as one_table_released\n", 1, "no such file: given/one_table_released/t.con"),
    ("ask argue run r.job\n", 1, "no program is asked"),
    ('ask argus "run\n', 1, "No closing quotation"),
    ("ask argus run \0\nsays 2 refused: job: Absent\n", 1, "cannot be asked"),
    (RUN + "file m.asc\n% {1..1000}{1..1000}\n" + SHORT, 1, "more than 100000 lines"),
    (RUN + "edit m.rdb\n", 1, "no file to edit"),
    (RUN + "edit m.asc\n- c 30\n+ c 40\n" + SAID, 1, "stand in the file 0 times"),
    (RUN + "edit m.asc\n- b 20\n+ b 30\n" + SAID, 1, "stand in the file 3 times"),
    (RUN + "edit m.asc\n+ b 30\n" + SAID, 1, "stand in the file 0 times"),
    (RUN + "without m.asd\n" + SAID, 1, "not understood: without m.asd"),
    (RUN + "file ../m.asc\n" + SAID, 1, "not understood: file ../m.asc"),
    (RUN + "file m.asc\n| a\\q\n" + SAID, 1, "no such byte"),
    (RUN + "cut m.asc before 8\n" + SHORT, 1, "the file has no line 8"),
    (RUN + "cut m.asc in 3\n" + SHORT, 1, "not understood: cut m.asc in 3"),
    (RUN + "cut m.asc within 7..6\n" + SHORT, 1, "nothing is tried"),
    (RUN + "digits m.asc in 7\n" + SHORT * 3, 1, "3 answers to 2 tries"),
    (RUN + "tells 0\n", 1, "not understood: tells 0"),
    ("| a line of nothing\n", 1, "not understood: | a line of nothing"),
    ("\udcff\udcfe", 1, "not UTF-8"),
]


def said_of(words: List[str]) -> Tuple[int, str]:
    ran = subprocess.run([TRY] + words, stdin=subprocess.DEVNULL, stdout=subprocess.PIPE, stderr=subprocess.STDOUT, text=True, check=False)
    return ran.returncode, ran.stdout


def differs(words: List[str], status: int, wanted: str) -> bool:
    """Whether the call ends otherwise, or doesn't say this, or its last line isn't the count of its tries."""
    code, said = said_of(words)
    last = said.rstrip("\n").rsplit("\n", 1)[-1]
    if code == status and wanted in said and re.fullmatch(r"cases: \d+ tried, \d+ differ(, \d+ files not understood)?", last):
        return False
    print(f"{words}: status {code}, and not {status} with: {wanted}\n{said}")
    return True


def main() -> int:
    wrong = 0
    with tempfile.TemporaryDirectory() as folder:
        for number, (text, status, wanted) in enumerate(ROWS):
            name = os.path.join(folder, f"{number}.txt")
            with open(name, "w", encoding="utf-8", errors="surrogateescape") as file:
                file.write(text)
            wrong += differs([name], status, wanted)
        wrong += differs([os.path.join(folder, "none.txt")], 1, "No such file or directory")
        wrong += differs([folder], 1, "Is a directory")
    print(f"cases/try: {len(ROWS) + 2} tried, {wrong} differ")
    return 1 if wrong else 0


if __name__ == "__main__":
    sys.exit(main())
