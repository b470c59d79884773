"""Writes one page (HTML) that shows a release, for the office and its auditor; or, with --public,
one for everyone.

usage: argus page JOB [FILE.html] [--public [--unchecked]] [--title TEXT] [--argus PROGRAM]

It works in the current folder, as argus does, after `argus run JOB`. It reads the job, the
metadata, the tables and the certificate, asks argus whether it accepts the release (`check`), the
program cells for the listings of the cells (`cells JOB`) and of the sums between them (`cells JOB
--relations`), and argus for what a reader can find out (`intervals`), all four side by side, and
puts all of it into one file that needs no other. Without FILE.html the page has the job's name with
`.html`. Where there is no program cells, the page says what it leaves out.

The tables stand in the page as they are. What else there is to know of a cell stands in it once, as
data, and the page's own script draws it when it is looked at or printed.

With --public the page has the job's name with `.public.html`. It is made from the tables alone,
with no true value, level or certificate in it, and only where argus accepts the release; with
--unchecked no program is asked.

TEXT is the title, and behind bars the unit, the period and the date: 'Turnover of firms | thousand
euros | 2025 | 30 November 2026'. Any of them may be empty. PROGRAM is the built argus, with the
built cells beside it; without it the launcher beside this package is called, or the programs inside
it, with ARGUS_BUILD=0, so that no page begins a build.

Nothing here is proved. The page shows what argus and cells wrote; what it works out by itself is
where a code stands in its hierarchy, shares and counts for the summary, and how close a figure
could be worked out if a hidden cell were shown.

The status is 0 where the page was written for an accepted release (or unchecked), 1 for the usage
line, 2 where something can't be read or written, 3 where argus doesn't accept the release: the page
says so, and a public one isn't written.
"""
