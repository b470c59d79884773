"""Reads all inputs of a job in their order and judges its release (manual: A release that isn't
accepted)."""
from typing import Dict, List, NamedTuple, Optional, Sequence, Set, Tuple

from argus_outside.cells import Book
from argus_outside.contributors import Guards
from argus_outside.certificate import Certificate, Refuted, World, read_certificate, read_extra
from argus_outside.job import Job, read_job
from argus_outside.metadata import bind, read_metadata
from argus_outside.plan import plan
from argus_outside.records import Codes, Records, read_records
from argus_outside.release import check_rounded, check_suppressed, read_rounded
from argus_outside.rules import Statements, keep, read_prior, settle
from argus_outside.sums import Sums, reaches
from argus_outside.texts import OUTPUT_LIMIT, NotAccepted, Unreadable, read_file

SIDES = ("above", "below")


class Case(NamedTuple):
    """A job with everything that its inputs say."""
    job: Job
    book: Book
    records: Records


def read_case(name: bytes) -> Case:
    """All inputs of a job, in the order in which argus reads them, or the first fault."""
    job = read_job(read_file(name, "job"))
    bound = bind(job, read_metadata(read_file(job.files["OPENMETADATA"][1], "metadata")))
    sources = [Codes(variable, number) for variable, number in zip(bound.spanning, bound.numbers)]
    records = read_records(read_file(job.files["OPENMICRODATA"][1], "microdata"), bound, sources)
    book = Book(records.trees, bound)
    book.tabulate(records, keep(job))
    statements = Statements()
    for prior in sorted(job.priors, key=lambda prior: prior.table):
        read_prior(book, prior, statements)
    settle(book, job, statements)
    if name in [written for _, written in job.written()]:
        raise Unreadable("out", None, "OutName",
                         "a file that the job writes has the name of the job")
    return Case(job, book, records)


def check(name: bytes, with_plan: bool = True) -> str:
    """Judges the release of a job.

    Gives what was worked out, in words, or raises the first fault.
    """
    case = read_case(name)
    job, files = case.job, case.job.files
    certificate = read_certificate(read_file(files["CERTIFICATE"][1], "certificate", OUTPUT_LIMIT))
    extra = None
    if "CONTRIBUTORS" in files:
        extra = read_extra(read_file(files["CONTRIBUTORS"][1], "contributors", OUTPUT_LIMIT))
    names = [job.outputs[table][1] for table in range(1, len(job.tables) + 1)]
    tables = [
        read_file(output, "table %d" % number, OUTPUT_LIMIT)
        for number, output in enumerate(names, 1)
    ]
    _counts_and_method(case, certificate)
    if job.method[0] == "RND":
        check_rounded(case.book, read_rounded(case.book, names, tables),
                      job.method[1] * 10**case.book.bound.decimals)
        return _answer(case, set(), [], True)
    hidden = set(certificate.hidden)
    _kinds(case.book, hidden)
    if extra is None:
        check_suppressed(case.book, hidden, names, tables)
    sums = _certificate(case, certificate, hidden, extra, with_plan)
    if extra is not None:
        own = [cell for cell in extra.hidden if cell < len(case.book.cells)]
        check_suppressed(case.book, hidden | set(own), names, tables)
        Guards(case.book, sums, certificate, extra).check()
        hidden |= set(own)
    return _answer(case, hidden, certificate.worlds + (extra.worlds if extra else []), with_plan)


def _counts_and_method(case: Case, certificate: Certificate) -> None:
    """The certificate speaks of this job: its counts, its numbers of cells, its method."""
    cells, relations = len(case.book.cells), len(case.book.relations)
    named = list(certificate.hidden) + [world.cell for world in certificate.worlds]
    for refuted in certificate.repairs + certificate.needs:
        named += [refuted.subject, refuted.cell]
    if (certificate.cells, certificate.relations) != (cells, relations) or any(number >= cells
                                                                               for number in named):
        raise NotAccepted(
            "Counts",
            "the certificate counts %d cells and %d relations, or names a cell that isn't there; "
            "the job's "
            "inputs have %d and %d" % (certificate.cells, certificate.relations, cells, relations))
    reasons = certificate.steps or certificate.repairs or certificate.needs
    lists = certificate.hidden or reasons or certificate.worlds
    if certificate.method != case.job.method or case.job.method[0] == "RND" and lists:
        raise NotAccepted(
            "Method",
            "the certificate's method isn't the job's, or it lists something for a rounding")


def _kinds(book: Book, hidden: Set[int]) -> None:
    """Every sensitive cell is hidden, and no cell that is always shown."""
    for number, cell in enumerate(book.cells):
        if cell.kind == "Primary" and number not in hidden:
            raise NotAccepted(
                "PrimaryShown %d" % number,
                "the certificate doesn't hide the sensitive cell %s" % book.named(number))
    for number in sorted(hidden):
        if book.cells[number].kind == "Fixed":
            raise NotAccepted(
                "FixedHidden %d" % number,
                "%s is hidden, but has no records or is always shown" % book.named(number))


def _certificate(case: Case, certificate: Certificate, hidden: Set[int],
                 extra: Optional[Certificate], with_plan: bool) -> Sums:
    """The plan, the repairs, that no cell is hidden without a reason, complete tables and needs."""
    book = case.book
    if with_plan:
        steps = plan(book, case.job.method[1])
        for place in range(max(len(steps), len(certificate.steps))):
            _due("Step", "step", place, certificate.steps, steps)
    else:
        for number, step in enumerate(certificate.steps):
            if any(c >= len(book.cells) or book.cells[c].kind == "Fixed" for c in step.corners):
                raise NotAccepted("Step %d" % number,
                                  "the step hides a cell that isn't there or is always shown")
    primary = [number for number, cell in enumerate(book.cells) if cell.kind == "Primary"]
    start = set(primary).union(*(step.corners for step in certificate.steps))
    movable = hidden | start | {repair.subject for repair in certificate.repairs}
    sums = Sums(
        book,
        movable | {cell
                   for cell in (extra.hidden if extra else []) if cell < len(book.cells)})
    _repairs(book, sums, certificate.repairs, start)
    for number in sorted(hidden - start):
        raise NotAccepted(
            "Outside %d" % number,
            "%s is hidden without a reason: it is neither sensitive nor in a step nor repaired" %
            book.named(number))
    _worlds(book, sums, certificate.worlds, hidden,
            [(number, side) for number in primary for side in SIDES])
    _needs(book, sums, certificate.needs, hidden,
           [number for number in sorted(hidden) if book.cells[number].kind != "Primary"])
    return sums


def _due(kind: str, words: str, place: int, found: Sequence[object],
         wanted: Sequence[object]) -> None:
    """A list of the certificate has at this place what is required there."""
    if found[place:place + 1] != wanted[place:place + 1]:
        state = "isn't the one that is due"
        if place >= len(found):
            state = "is missing"
        elif place >= len(wanted):
            state = "is one too many"
        raise NotAccepted("%s %d" % (kind, place),
                          "%s %d (counted from 0) of the certificate %s" % (words, place, state))


def _repairs(book: Book, sums: Sums, repairs: List[Refuted], hidden: Set[int]) -> None:
    """Each repair's multipliers show that its cell wasn't protected by what was hidden before.

    `hidden` grows by the subjects.
    """
    for place, repair in enumerate(repairs):
        if repair.subject in hidden or book.cells[repair.subject].kind != "Free":
            raise NotAccepted(
                "RepairCell %d" % place,
                "repair %d hides %s, which is hidden already or may not be hidden" %
                (place, book.named(repair.subject)))
        fault = sums.refutation_fault(hidden, repair)
        if fault:
            raise NotAccepted(
                "Repair %d %s" % (place, fault[0]),
                "repair %d for %s doesn't show that it was due: %s" %
                (place, book.named(repair.cell), fault[1]))
        if sums.coefficients(repair).get(repair.subject, 0) == 0:
            raise NotAccepted(
                "RepairCell %d" % place,
                "repair %d hides %s, which its multipliers don't speak of" %
                (place, book.named(repair.subject)))
        hidden.add(repair.subject)


def _worlds(book: Book, sums: Sums, worlds: List[World], hidden: Set[int],
            due: List[Tuple[int, str]]) -> None:
    """For each sensitive cell a complete table that takes it far enough above, and one below."""
    found = [(world.cell, world.side) for world in worlds]
    for place in range(max(len(worlds), len(due))):
        _due("WorldCell", "complete table", place, found, due)
        world = worlds[place]
        fault = sums.world_fault(hidden, world)
        if fault:
            raise NotAccepted(
                "World %d %s" % (place, fault[0]), "the complete table for %s %s isn't one: %s" %
                (book.named(world.cell), world.side, fault[1]))
        if not reaches(book.cells[world.cell], world.side,
                       dict(world.moves).get(world.cell, 0), world.den):
            raise NotAccepted(
                "NotReached %d %s" % (world.cell, world.side),
                "the complete table for %s moves it by less than its "
                "level %s" % (book.named(world.cell), world.side))


def _needs(book: Book, sums: Sums, needs: List[Refuted], hidden: Set[int], due: List[int]) -> None:
    """For each further hidden cell multipliers that show: without it, some sensitive cell wouldn't
    be protected.
    """
    found = [need.subject for need in needs]
    for place in range(max(len(needs), len(due))):
        _due("NeedCell", "need", place, found, due)
        need = needs[place]
        fault = sums.refutation_fault(hidden, need, (need.subject, ))
        if fault:
            raise NotAccepted(
                "Need %d %s" % (place, fault[0]),
                "the need doesn't show that %s must stay hidden: %s" %
                (book.named(need.subject), fault[1]))


def _room(book: Book, worlds: List[World], side: str) -> Optional[str]:
    """The least, over the sensitive cells, of the farthest that the listed complete tables take a
    cell to this side, as a
    multiple of its level, rounded down to two decimals. Cells without a level on this side don't
    count."""
    best: Dict[int, Tuple[int, int]] = {}  # per cell: farthest move as (numerator, denominator)
    sign = 1 if side == "above" else -1
    for world in worlds:
        for number, by in world.moves:
            far, den = best.get(number, (0, 1))
            if sign * by * den > far * world.den:
                best[number] = (sign * by, world.den)
    hundredths = []
    for number, cell in enumerate(book.cells):
        level = cell.up if side == "above" else cell.down
        if cell.kind == "Primary" and level:
            far, den = best.get(number, (0, 1))
            hundredths.append(100 * far // (den * level))
    return "%d.%02d" % divmod(min(hundredths), 100) if hundredths else None


def _answer(case: Case, hidden: Set[int], worlds: List[World], with_plan: bool) -> str:
    """What was worked out, in one line."""
    sensitive = sum(cell.kind == "Primary" for cell in case.book.cells)
    words = "%d records (%d more skipped), %d cells, %d sensitive, " % (
        case.records.size, case.records.skipped, len(case.book.cells), sensitive)
    if case.job.method[0] == "RND":
        rest = "none hidden; all shown numbers are rounded and add up, which by itself protects no "
        return words + rest + "cell"
    words += "%d hidden" % len(hidden)
    for side in SIDES:
        room = _room(case.book, worlds, side)
        if room is not None:
            words += "; room %s of a sensitive cell at least %s times its level" % (side, room)
    return words + ("" if with_plan else "; the plan wasn't checked")
