"""A machine: its accelerators, the lanes between them, and its network cards."""
from __future__ import annotations

from dataclasses import dataclass, field
from fractions import Fraction
from typing import Dict, List, Optional, Tuple


class Refused(Exception):
    """What was given is no machine, or none that can be taken, for the reason that is said; of an input with its line."""

    def __init__(self, why: str, line: int = 0) -> None:
        super().__init__(f"line {line}: {why}" if line else why)


@dataclass
class Card:
    """A network card: its speed in Gb/s each way, where that is told, and how far it is from each accelerator."""

    name: str
    speed: Optional[Fraction]
    distances: List[int]


@dataclass
class Machine:
    """One box. Accelerators go by their numbers, in the order of the names.

    `lanes` has how many lanes go from one accelerator to another, `ports` how many go from each to a switch, which joins all that
    have some. `lane_speed` is that of a lane in Gb/s each way, where that is told.
    """

    names: List[str]
    lanes: Dict[Tuple[int, int], int] = field(default_factory=dict)
    ports: List[int] = field(default_factory=list)
    cards: List[Card] = field(default_factory=list)
    lane_speed: Optional[Fraction] = None

    def numbers(self) -> range:
        return range(len(self.names))

    def of(self, kept: List[int]) -> Machine:
        """The part that has these accelerators alone, in this order."""
        place = {number: at for at, number in enumerate(kept)}
        lanes = {(place[a], place[b]): count for (a, b), count in self.lanes.items() if a in place and b in place}
        cards = [Card(it.name, it.speed, [it.distances[number] for number in kept]) for it in self.cards]
        return Machine([self.names[it] for it in kept], lanes, [self.ports[it] for it in kept], cards, self.lane_speed)


def symmetric(lanes: Dict[Tuple[int, int], int], names: List[str], lines: List[int]) -> None:
    """Refuses lanes that go one way alone; `lines` has the line of each accelerator."""
    for (a, b), count in lanes.items():
        back = lanes.get((b, a), 0)
        if back != count:
            raise Refused(f"{names[a]} has {count} lanes to {names[b]}, and {names[b]} has {back} to {names[a]}", lines[a])
