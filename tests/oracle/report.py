"""Report texts, of both versions."""
from __future__ import annotations

import re
from collections.abc import Callable
from dataclasses import dataclass, field
from fractions import Fraction
from typing import Tuple, TypeVar

from . import topology
from .collective import ROOTED, STANDARD, Candidate, allows, chunks, of_part
from .texts import Lines, Refused, need, needed, number
from .topology import Topology

Found = TypeVar("Found")
# A step, a chunk, and the numbers of the sender and the receiver.
Send = Tuple[int, int, int, int]
SHAPE, LACKS, RULE = 1, 2, 3
WORDS = re.compile("synth collective=([^ ]+) k=([^ ]+) steps=([^ ]+) chunks=([^ ]+) conflicts=([^ ]+)( root=([^ ]+))?( cuts=yes)?( ordered=yes)?")
LIMITS = {"k": (0, 8), "steps": (1, 8), "chunks": (1, 16), "conflicts": (1, 100000)}


@dataclass
class Point:
    candidate: Candidate
    mark: str
    rounds: list[int]
    sends: list[Send]
    adding: int = 0  # how many of the steps of a joined point add


@dataclass
class Frontier:
    points: list[Point] = field(default_factory=list)
    refuted: list[Candidate] = field(default_factory=list)
    unknown: list[Candidate] = field(default_factory=list)


@dataclass
class Report:
    kind: str
    limits: dict[str, int]
    root: int
    topology: Topology
    frontiers: dict[str, Frontier]  # by part
    joined: list[Point]
    has_cuts: bool = False
    is_ordered: bool = False

    def points(self) -> list[tuple[str, Point]]:
        """Each point with its part, in the order of the text."""
        found = [(part, it) for part, frontier in self.frontiers.items() for it in frontier.points]
        return found + [("joined", it) for it in self.joined]


def in_search_order(candidate: Candidate) -> tuple[int, Fraction, int]:
    steps, rounds, count = candidate
    return steps, Fraction(rounds, count), count


def whole_report(text: bytes) -> Report:
    return Reader(text).report()


class Reader:
    """Takes a report off a text line by line, and raises Refused at the first line that fails a check."""

    def __init__(self, text: bytes) -> None:
        self.lines = Lines(text)

    def take(self) -> str:
        """The next line, which has to be there and whole."""
        self.at = self.lines.number
        need(self.lines.is_whole(), LACKS, self.at)
        return self.lines.take()

    def holds(self, test: object, code: int) -> None:
        need(test, code, self.at)

    def fixed(self, *due: str) -> str:
        row = self.take()
        self.holds(row in due, SHAPE)
        return row

    def report(self) -> Report:
        patterned = self.fixed("sccl 1", "sccl 2") == "sccl 2"
        root = self.asked(patterned)
        self.read_topology(patterned, root)
        self.root = 0 if root is None else self.topology.names.index(root)
        parts = ["reduce", "gather"] if self.kind == "allreduce" else ["whole"]
        frontiers = {it: self.frontier(it) for it in parts}
        joined = self.joined() if self.kind == "allreduce" else []
        self.fixed("end")
        if self.lines.is_there():
            self.take()
            self.holds(False, SHAPE)
        return Report(self.kind, self.limits, self.root, self.topology, frontiers, joined, self.has_cuts, self.is_ordered)

    def asked(self, patterned: bool) -> str | None:
        """The words of the search: their shape, of which numbers may have any size, and then their ranges."""
        found = needed(WORDS.fullmatch(self.take()), SHAPE, self.at)
        self.kind, *numbers, _, root, cuts, order = found.groups()
        self.has_cuts, self.is_ordered = cuts is not None, order is not None
        self.holds(self.kind in STANDARD or patterned and self.kind == "custom", SHAPE)
        self.limits = {name: needed(number(it), SHAPE, self.at) for name, it in zip(LIMITS, numbers)}
        self.holds((root is not None) == (self.kind in ROOTED) and (root is None or topology.NAME.fullmatch(root)), SHAPE)
        self.holds(all(least <= self.limits[it] <= most for it, (least, most) in LIMITS.items()), RULE)
        self.holds(not patterned or self.kind == "custom", RULE)
        return root

    def read_topology(self, patterned: bool, root: str | None) -> None:
        self.holds(self.part(topology.version) == (2 if patterned else 1), SHAPE)
        names = self.part(topology.nodes)
        self.holds(root is None or root in names, RULE)
        self.topology = self.part(topology.behind_nodes, names, patterned)

    def part(self, take: Callable[..., Found], *more: object) -> Found:
        """A part of the topology. What is refused there has a wrong shape, unless the line is lacking or lacks its line feed."""
        self.at = self.lines.number
        try:
            return take(self.lines, *more)
        except Refused as why:
            raise Refused(SHAPE if self.lines.is_whole(why.line) else LACKS, why.line) from None

    def frontier(self, part: str) -> Frontier:
        self.fixed(f"frontier {part}")
        kind, found = of_part(self.kind, part), Frontier()
        while self.lines.begins("point "):
            found.points.append(self.point(kind, found.points))
        while self.lines.begins("refuted "):
            candidate, rest = self.candidate(self.take().split(" ")[1:], 0)
            self.holds(not rest, SHAPE)
            self.in_turn(kind, candidate, found.refuted)
            found.refuted.append(candidate)
        while self.lines.begins("unknown "):
            candidate, rest = self.candidate(self.take().split(" ")[1:], 1)
            conflicts = needed(number(rest[0]), SHAPE, self.at)
            self.in_turn(kind, candidate, found.unknown)
            self.holds(conflicts == self.limits["conflicts"], RULE)
            found.unknown.append(candidate)
        return found

    def candidate(self, words: list[str], more: int) -> tuple[Candidate, list[str]]:
        """Three numbers, and so many words behind them."""
        self.holds(len(words) == 3 + more, SHAPE)
        steps, rounds, count = (self.small(it) for it in words[:3])
        return (steps, rounds, count), words[3:]

    def small(self, word: str) -> int:
        return needed(number(word, 0, 65535), SHAPE, self.at)

    def in_turn(self, kind: str, candidate: Candidate, earlier: list[Candidate]) -> None:
        """A candidate of a frontier is within the limits, and comes after the one before it."""
        (steps, rounds, count), limits = candidate, self.limits
        self.holds(1 <= steps <= limits["steps"] and steps <= rounds <= steps + limits["k"], RULE)
        self.holds(1 <= count <= limits["chunks"] and allows(kind, len(self.topology.names), count), RULE)
        self.holds(not earlier or in_search_order(earlier[-1]) < in_search_order(candidate), RULE)

    def point(self, kind: str, earlier: list[Point]) -> Point:
        candidate, (mark,) = self.candidate(self.take().split(" ")[1:], 1)
        self.holds(mark in ("optimal", "open"), SHAPE)
        self.in_turn(kind, candidate, [it.candidate for it in earlier])
        return self.schedule(kind, Point(candidate, mark, [], []))

    def joined(self) -> list[Point]:
        self.fixed("joined")
        found = []
        while self.lines.begins("point "):
            candidate, (word, last) = self.candidate(self.take().split(" ")[1:], 2)
            self.holds(word == "joined", SHAPE)
            adding, (steps, rounds, count) = self.small(last), candidate
            self.holds(2 <= steps <= 2 * self.limits["steps"] and steps <= rounds <= steps + 2 * self.limits["k"], RULE)
            self.holds(1 <= count <= self.limits["chunks"] and 1 <= adding < steps, RULE)
            found.append(self.schedule(self.kind, Point(candidate, "joined", [], [], adding)))
        return found

    def schedule(self, kind: str, point: Point) -> Point:
        """The line of the rounds, and the lines of the sends."""
        steps, rounds, count = point.candidate
        word, *words = self.take().split(" ")
        self.holds(word == "rounds", SHAPE)
        point.rounds = [self.small(it) for it in words]
        self.holds(len(point.rounds) == steps and all(1 <= it <= 9 for it in point.rounds) and sum(point.rounds) == rounds, RULE)
        while self.lines.begins("send "):
            words = self.take().split(" ")[1:]
            self.holds(len(words) == 4, SHAPE)
            chunk, step = self.small(words[0]), self.small(words[3])
            self.holds(all(it in self.topology.names for it in words[1:3]), SHAPE)
            sender, receiver = map(self.topology.names.index, words[1:3])
            send = (step, chunk, sender, receiver)
            self.holds(chunk < chunks(kind, self.topology, count) and 1 <= step <= steps, RULE)
            self.holds(not point.sends or point.sends[-1] < send, RULE)
            point.sends.append(send)
        return point
