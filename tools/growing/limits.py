"""The floor of a collective over a topology, and the limits at which a point can meet it."""
from __future__ import annotations

import re
from dataclasses import dataclass
from fractions import Fraction
from typing import Any, Dict, Iterator, List, NamedTuple, Optional, Set, Tuple

from reporting.program import Failed, Program
from viewing.runs import OF_PART, placements

# The least and the most that the program searches.
RANGES = {"steps": (1, 8), "k": (0, 8), "chunks": (1, 16)}
COPY_OF = {"reduce": "broadcast", "reducescatter": "allgather", "allreduce": "allgather"}
FLOOR = re.compile(r"floor ([0-9]+) ([0-9]+)((?: [a-z0-9_]+)*)")


class Limits(NamedTuple):
    """The limits of a search, and whether a point within them can meet the floor."""

    steps: int
    k: int
    chunks: int
    can_meet: bool


@dataclass
class Floor:
    """In every schedule of a part rounds are at least so many times the chunk count; no rate where there is no schedule."""

    rate: Optional[Fraction]
    names: List[str]


class Task:
    """A collective over a topology, and the most steps, rounds more than steps and chunks that are asked for."""

    def __init__(self, collective: str, root: Optional[str], topology: Dict[str, Any], asked: Dict[str, int]) -> None:
        self.collective, self.root, self.topology = collective, root, topology
        self.parts = list(OF_PART) if collective == "allreduce" else ["whole"]
        self.each = len(topology["nodes"]) if collective == "alltoall" else 1
        self.floors: Dict[str, Floor] = {}
        self.steps, self.k, self.chunks = (asked.get(it, most) for it, (_, most) in RANGES.items())
        self.asked, self.is_limited = asked, len(asked) == len(RANGES)
        if self.chunks < self.each:
            raise Failed(f"chunks={self.chunks} is too few: the least chunk count of this collective is {self.each}")

    def whole(self) -> Limits:
        """All that is asked for."""
        return Limits(self.steps, self.k, self.chunks, True)

    def words(self, k: int, steps: int, chunks: int, conflicts: int, collective: str = "") -> List[str]:
        found = [f"collective={collective or self.collective}", f"k={k}", f"steps={steps}", f"chunks={chunks}", f"conflicts={conflicts}"]
        return found + ([f"root={self.root}"] if self.root else [])

    def ask_floors(self, program: Program, text: bytes, folder: str) -> None:
        """Asks `bound` for the floor of each part, which counts at all sets of nodes."""
        for part in self.parts:
            words = ["bound", *self.words(0, 1, self.each, 1, OF_PART.get(part, self.collective)), "sets=all"]
            told = program.wanted(words, text, folder).decode()
            found = next((it for it in map(FLOOR.fullmatch, told.split("\n")) if it), None)
            if not found:
                raise Failed("bound tells of no floor")
            rate = Fraction(int(found[1]), int(found[2])) if int(found[2]) else None
            self.floors[part] = Floor(rate, found[3].split())

    def counts(self) -> range:
        """The chunk counts that may be searched."""
        return range(self.each, self.chunks + 1, self.each)

    def rounds_at(self, count: int) -> List[Fraction]:
        """How many rounds the floor of each part asks for at a chunk count."""
        return [it.rate * count for it in self.floors.values() if it.rate is not None]

    def meeting(self) -> List[Tuple[int, int, int]]:
        """The chunk counts at which all floors can be met, with the least and the most rounds of the parts."""
        found = ((it, self.rounds_at(it)) for it in self.counts())
        return [(count, int(min(rounds)), int(max(rounds))) for count, rounds in found if all(it.denominator == 1 for it in rounds)]

    def limits(self, steps: int, place: int = 0) -> Optional[Limits]:
        """The limits of so many steps within which the floor can be met, with the smallest chunk count that does, or a later one by its
        place. Where there is none, the first limits are those that come nearest, and there are no others."""
        fitting = [(count, most) for count, least, most in self.meeting() if least >= steps and most - steps <= self.k]
        if place < len(fitting):
            count, rounds = fitting[place]
            return Limits(steps, rounds - steps, count, True)
        return None if place or fitting else self.nearest(steps)

    def nearest(self, steps: int) -> Limits:
        """The limits of so many steps, within which no candidate meets the floor, that let come nearest to it."""
        if max(self.rounds_at(self.each)) - steps > self.k:
            return Limits(steps, self.k, self.each, False)
        count = self.counts()[-1]
        rounds = -(-max(self.rounds_at(count)) // 1)
        return Limits(steps, min(self.k, max(0, rounds - steps)), count, False)

    def least_steps(self) -> int:
        """How many links a chunk has to cross at least, where it has the longest way."""
        links = {(a, b) for it in self.topology["groups"] for a, b in it["links"]}
        collective = COPY_OF.get(self.collective, self.collective)
        links = {(b, a) for a, b in links} if collective != self.collective and self.collective != "allreduce" else links
        before, after = placements(collective, self.root, self.topology, self.each)
        return max([1, *(way for held, due in zip(before, after) for way in ways(set(held), set(due), links))])


def ways(held: Set[str], due: Set[str], links: Set[Tuple[str, str]]) -> Iterator[int]:
    """The step in which a chunk comes to all of the nodes at the earliest; none where it can't."""
    reached, steps = set(held), 0
    while not due <= reached:
        more = {b for a, b in links if a in reached} - reached
        if not more:
            return
        reached, steps = reached | more, steps + 1
    yield steps
