"""What argus writes beside the tables: a certificate, or a contributors' file, by its lines."""

from typing import Dict, List, NamedTuple, Optional, Sequence, Tuple

from argus_office.reading.files import lines_of, text_of


class BadCertificate(Exception):
    """A certificate that can't be read, in a line."""


def lines_with(data: bytes, word: bytes) -> List[Tuple[int, bytes]]:
    """The lines that begin with a word, each with its number from 1."""
    numbered = enumerate(lines_of(data), 1)
    return [(number, line) for number, line in numbered if line.split(b" ")[0] == word]


class Step(NamedTuple):
    """A step of the plan: its table, the places in it, the cell that it opens, and its corners."""

    table: int
    places: List[int]
    subject: int
    corners: List[int]


class Need(NamedTuple):
    """Why a cell is hidden: the cell that would be given away, its side, and the multipliers of the
    relations, over q."""

    cell: int
    subject: int
    side: str
    q: int
    multipliers: List[Tuple[int, int]]


class World(NamedTuple):
    """A complete table: whose it is, its side, and by how many den-th units each cell moves."""

    subject: int
    side: str
    den: int
    moves: List[Tuple[int, int]]


class Certificate:
    """A certificate of either version, as its lines have it."""

    def __init__(self, data: bytes) -> None:
        """Raises BadCertificate where it isn't as argus writes it."""
        self.hidden: List[int] = []
        self.steps: List[Step] = []
        self.repairs: List[Need] = []
        self.needs: Dict[int, Need] = {}
        self.worlds: List[World] = []
        self.counts: Dict[str, Optional[int]] = {"cells": None, "relations": None}
        rows = [line.split(" ") for line in text_of(data).split("\n")]
        if rows[0][:2] != ["argus", "certificate"] or rows[0][2:] not in (["1"], ["2"]):
            raise BadCertificate("the certificate has none of the versions that are known here")
        self.is_moves = rows[0][2] == "2"
        try:
            for row in rows[1:]:
                self.take(row[0], row[1:])
        except (ValueError, IndexError) as fault:
            raise BadCertificate(
                "the certificate can't be read: see what argus check says"
            ) from fault
        self.came = self.ways()

    def take(self, word: str, said: List[str]) -> None:
        """Takes a line. Raises ValueError or IndexError where it isn't as argus writes it."""
        if word in self.counts:
            self.counts[word] = int(said[0])
        elif word == "hidden":
            self.hidden = [int(it) for it in said]
        elif word == "step":
            table, places, cell, corners = said
            self.steps.append(Step(int(table), numbers(places), int(cell), numbers(corners)))
        elif word in ("repair", "need"):
            row = Need(int(said[0]), int(said[1]), said[2], int(said[3]), pairs(said[4:]))
            if word == "repair":
                self.repairs.append(row)
            else:
                self.needs[row.cell] = row
        elif word == "world":
            moves = pairs(said[3:]) if self.is_moves else list(zip(self.hidden, map(int, said[3:])))
            kept = [it for it in moves if it[1]]
            self.worlds.append(World(int(said[0]), said[1], int(said[2]), kept))

    def ways(self) -> Dict[int, str]:
        """How hidden cells came: by being primary, by the first step or by the repair that hides
        them."""
        found = {world.subject: "primary" for world in self.worlds}
        for k, step in enumerate(self.steps, 1):
            for corner in step.corners:
                found.setdefault(corner, "step %d" % k)
        for k, repair in enumerate(self.repairs, 1):
            found.setdefault(repair.cell, "repair %d" % k)
        return found

    def came_by(self, cell: int) -> str:
        """How a hidden cell came: primary, a step, a repair, or else extra."""
        return self.came.get(cell, "extra")


def numbers(text: str) -> List[int]:
    """The numbers of a list with commas. Raises ValueError where it has others."""
    return [int(it) for it in text.split(",")]


def pairs(tokens: Sequence[str]) -> List[Tuple[int, int]]:
    """The pairs of numbers with a colon between. Raises ValueError where there are others."""
    found = []
    for token in tokens:
        first, second = token.split(":")
        found.append((int(first), int(second)))
    return found
