"""Says in a few lines what an answer of argus means for a job: where the fault is, the rule, the
likely cause, and what to do.

usage: argus explain JOB 'ANSWER' ['FURTHER LINE' ..] explain run JOB | check JOB | intervals JOB
OUT | audit JOB OUT | migrate OLD NEW, with the answer on standard input explain --lines .., which
prints the lines for an a priori file alone

It works in the current folder, as argus does, reads the job and the files that it names, and writes
to none. After a status of 2, 3 or 4, and after a release, the launcher calls it by itself where
standard error is a terminal or ARGUS_EXPLAIN=1 is set. Of a release it says only what looks odd, a
line each, and mostly nothing.

Nothing here is proved: argus has judged, and this looks for the cause. The status is 0 where
something was said, 1 for the usage lines, 2 where there was nothing to say.
"""
