"""Reads a certificate of version 1 or 2, and a contributors' file (manual: The certificate, line by
line).

Within a line the kinds of faults are looked for in this order: Shape (words and their number),
Number (how a number is spelled, and its range), Order (a list that doesn't ascend)."""
import re
from typing import Callable, Dict, List, NamedTuple, Optional, Tuple

from argus_outside.texts import Unreadable

SPELLED = re.compile(rb"0|-?[1-9][0-9]{0,38}")
CELL = (1 << 32) - 1
WIDE = 1 << 127  # numbers lie from -2^127 and below 2^127
SIDES = {b"above": "above", b"below": "below"}
Pairs = List[Tuple[int, int]]


class Step(NamedTuple):
    """A step of the plan: table from 0, the subtable's parents, the cell and its cube's corners."""
    table: int
    parents: Tuple[int, ...]
    cell: int
    corners: Tuple[int, ...]


class Refuted(NamedTuple):
    """A repair or a need: without its subject, the cell can't lie far enough to the side, by
    multipliers over den.
    """
    subject: int
    row: Optional[int]  # of a contributors' need: the record, from 0
    cell: int
    side: str
    den: int
    multipliers: Pairs


class World(NamedTuple):
    """A complete table for a cell and a side: moves over den by cell; a cell that isn't named
    doesn't move.
    """
    cell: int
    side: str
    den: int
    moves: Pairs


class Certificate:
    """What a certificate lists; the contributors' file has its extra cells in `hidden` and its
    guards in `worlds`.
    """
    def __init__(self) -> None:
        self.method: Tuple[str, int] = ("MOD", 1)
        self.cells = self.relations = 0
        self.hidden: List[int] = []
        self.steps: List[Step] = []
        self.repairs: List[Refuted] = []
        self.needs: List[Refuted] = []
        self.worlds: List[World] = []


class Bad(Exception):
    """A fault within a line: its kind and what it means."""


def _shape(good: bool) -> None:
    if not good:
        raise Bad("Shape", "the line has another first word, or too few or too many words")


def _number(token: bytes, low: int = 0, high: int = CELL) -> int:
    """A number in argus's spelling, within a range."""
    if not SPELLED.fullmatch(token) or not low <= int(token) <= high:
        raise Bad("Number", "a number isn't spelled as argus spells it, or is out of range")
    return int(token)


def _ascending(numbers: List[int]) -> None:
    if any(a >= b for a, b in zip(numbers, numbers[1:])):
        raise Bad("Order", "a list doesn't ascend")


def _pairs(tokens: List[bytes]) -> Pairs:
    """Numbers by relation or by cell, as `r:n`, ascending, none 0."""
    found = []
    for token in tokens:
        first, second = token.split(b":", 1)
        pair = (_number(first), _number(second, -WIDE, WIDE - 1))
        if pair[1] == 0:
            raise Bad("Number", "a number is 0 where none is written")
        found.append(pair)
    _ascending([first for first, _ in found])
    return found


def _method(tokens: List[bytes], into: Certificate) -> None:
    word = tokens[1].decode("latin-1") if len(tokens) > 1 else ""
    _shape(len(tokens) == {"MOD": 2, "GH": 3, "RND": 3}.get(word))
    low, high = (0, CELL) if word == "GH" else (-WIDE, WIDE - 1)
    into.method = (word, 1 if word == "MOD" else _number(tokens[2], low, high))


def _count(tokens: List[bytes], into: Certificate) -> None:
    _shape(len(tokens) == 2)
    setattr(into, tokens[0].decode(), _number(tokens[1]))


def _hidden(tokens: List[bytes], into: Certificate) -> None:
    _shape(len(tokens) > 1)
    into.hidden = [_number(token) for token in tokens[1:]]
    _ascending(into.hidden)


def _step(tokens: List[bytes], into: Certificate) -> None:
    _shape(len(tokens) == 5 and b"" not in (tokens[2], tokens[4]) and tokens[2].count(b",") < 8)
    table, cell = _number(tokens[1], 1), _number(tokens[3])
    parents = tuple(_number(part) for part in tokens[2].split(b","))
    corners = [_number(part) for part in tokens[4].split(b",")]
    _ascending(corners)
    into.steps.append(Step(table - 1, parents, cell, tuple(corners)))


def _refuted(tokens: List[bytes], row: bool = False) -> Refuted:
    start = 3 if row else 2
    _shape(
        len(tokens) >= start + 3 and tokens[start + 1] in SIDES
        and all(b":" in token for token in tokens[start + 3:]))
    subject = _number(tokens[1])
    number = _number(tokens[2], 1) - 1 if row else None
    cell, den = _number(tokens[start]), _number(tokens[start + 2], 1, WIDE - 1)
    return Refuted(subject, number, cell, SIDES[tokens[start + 1]], den, _pairs(tokens[start + 3:]))


def _world(tokens: List[bytes], into: Certificate, version: int) -> None:
    _shape(len(tokens) >= 4 and tokens[2] in SIDES)
    if version == 1:
        _shape(len(tokens) == 4 + len(into.hidden))
    else:
        _shape(all(b":" in token for token in tokens[4:]))
    cell, den = _number(tokens[1]), _number(tokens[3], 1, WIDE - 1)
    if version == 1:
        numbers = [_number(token, -WIDE, WIDE - 1) for token in tokens[4:]]
        moves = [(c, n) for c, n in zip(into.hidden, numbers) if n]
    else:
        moves = _pairs(tokens[4:])
    into.worlds.append(World(cell, SIDES[tokens[2]], den, moves))


Grammar = Dict[bytes, Tuple[int, Optional[Callable[[List[bytes], Certificate], None]]]]
ORDER: Grammar = {
    b"method": (1, _method),
    b"cells": (2, _count),
    b"relations": (3, _count),
    b"hidden": (4, _hidden),
    b"step": (5, _step),
    b"repair": (6, lambda t, c: c.repairs.append(_refuted(t))),
    b"need": (7, lambda t, c: c.needs.append(_refuted(t))),
    b"end": (9, None)
}
EXTRA: Grammar = {
    b"extra": (4, _hidden),
    b"need": (7, lambda t, c: c.needs.append(_refuted(t, True))),
    b"guard": (8, lambda t, c: _world(t, c, 2)),
    b"end": (9, None)
}


def _read(data: bytes, where: str, firsts: Dict[bytes, Grammar], start: int) -> Certificate:
    """Line by line: stages up to 3 stand once and in turn, stage 4 at most once, the later ones as
    often as one likes.
    """
    parts = data.split(b"\n")  # the last part has no LF behind it
    if parts[0] not in firsts and data:
        raise Unreadable(where, 1, "Version", "the first line isn't that of such a file")
    found, stage = Certificate(), start
    for number, line in enumerate(parts[:-1], 1):
        try:
            tokens = line.split(b" ")
            if number > 1:
                next_, take = firsts[parts[0]].get(tokens[0], (0, None))
                _shape(next_ == stage + 1 if stage < 3 else next_ > stage or next_ == stage > 4)
                _shape(stage < 9)
                stage = next_
                if take:
                    take(tokens, found)
                else:
                    _shape(len(tokens) == 1)
        except Bad as bad:
            raise Unreadable(where, number, *bad.args)
    if parts[-1] or stage < 9:
        kind = "Shape" if parts[-1] else "NoEnd"
        words = "the line has no LF, or stands behind the end" if parts[
            -1] else "the file ends before its line `end`"
        raise Unreadable(where, len(parts), kind, words)
    return found


def read_certificate(data: bytes) -> Certificate:
    """The certificate of which these bytes are a text, of either version."""
    first: Grammar = {b"world": (8, lambda t, c: _world(t, c, 1)), **ORDER}
    second: Grammar = {b"world": (8, lambda t, c: _world(t, c, 2)), **ORDER}
    return _read(data, "certificate", {
        b"argus certificate 1": first,
        b"argus certificate 2": second
    }, 0)


def read_extra(data: bytes) -> Certificate:
    """The contributors' file: extra cells, their needs, and guards."""
    return _read(data, "contributors", {b"argus contributors 1": EXTRA}, 3)
