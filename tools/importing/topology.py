"""The topology of one box or of several alike: groups of links by what shares lanes, with widths in proportion to speeds."""
from __future__ import annotations

from dataclasses import dataclass
from fractions import Fraction
from math import gcd
from typing import Dict, Iterable, List, Tuple

from .machine import Card, Machine, Refused

MOST_NODES, MOST_GROUPS, MOST_WIDTH = 16, 256, 16


@dataclass
class Group:
    """Links that share a speed, in Gb/s each way."""

    speed: Fraction
    links: List[Tuple[str, str]]


@dataclass
class Speeds:
    """In Gb/s each way: of a lane between accelerators, and of a network card whose speed the machine does not tell."""

    lane: Fraction
    card: Fraction


def groups_of(machine: Machine, boxes: int, speeds: Speeds, rails: bool) -> Tuple[List[str], List[Group]]:
    """The names of the nodes, and the groups, of so many boxes. With `rails` an accelerator sends to those of its own place alone."""
    names = [[it if boxes == 1 else f"b{box}_{it}" for it in machine.names] for box in range(boxes)]
    count = boxes * len(machine.names)
    if count > MOST_NODES:
        raise Refused(f"{count} accelerators are more nodes than the {MOST_NODES} that sccl takes: leave out {count - MOST_NODES}, "
                      "with --only NAMES or fewer --boxes")
    groups = [it for box in names for it in [*direct(machine, box, speeds), *switched(machine, box, speeds)]]
    if boxes > 1:
        groups += [group for box in range(boxes) for group in outward(machine, names, box, speeds, rails)]
    if not groups:
        raise Refused("no accelerator has a lane to another")
    if len(groups) > MOST_GROUPS:
        raise Refused(f"{len(groups)} groups of links are more than the {MOST_GROUPS} that sccl takes: leave out some, with --only NAMES")
    return [it for box in names for it in box], groups


def direct(machine: Machine, names: List[str], speeds: Speeds) -> Iterable[Group]:
    """A group for each two accelerators that have lanes, and each way."""
    return [Group(count * speeds.lane, [(names[a], names[b])]) for (a, b), count in sorted(machine.lanes.items()) if count]


def switched(machine: Machine, names: List[str], speeds: Speeds) -> Iterable[Group]:
    """A port out and a port in for each accelerator at the switch."""
    joined = [it for it in machine.numbers() if machine.ports[it]]
    for a in joined if len(joined) > 1 else []:
        speed, others = machine.ports[a] * speeds.lane, [it for it in joined if it != a]
        yield Group(speed, [(names[a], names[b]) for b in others])
        yield Group(speed, [(names[b], names[a]) for b in others])


def outward(machine: Machine, names: List[List[str]], box: int, speeds: Speeds, rails: bool) -> Iterable[Group]:
    """For each network card of a box that is in use a group of what goes out by it to other boxes, and one of what comes in."""
    for card, users in shared_out(machine).items():
        speed = machine.cards[card].speed or speeds.card
        pairs = [(names[box][a], other[b]) for a in users for other in names if other is not names[box]
                 for b in machine.numbers() if not rails or a == b]
        yield Group(speed, pairs)
        yield Group(speed, [(b, a) for a, b in pairs])


def shared_out(machine: Machine) -> Dict[int, List[int]]:
    """The accelerators of each network card that is in use: each takes the nearest; of these, the one that the fewest took before."""
    users: Dict[int, List[int]] = {}
    for a in machine.numbers():
        cards = range(len(machine.cards))
        found = min(cards, key=lambda it: (machine.cards[it].distances[a], len(users.get(it, [])), it))
        users.setdefault(found, []).append(a)
    return dict(sorted(users.items()))


def spread(machine: Machine, count: int) -> List[Card]:
    """So many network cards in place of those of the machine, each for as many accelerators, in their order."""
    many = len(machine.names)
    if not 1 <= count <= many:
        raise Refused(f"a box has 1 to {many} network cards, one for each accelerator at most: --nic-speed is the sum where one has more")
    return [Card(f"nic{it}", None, [abs(number * count // many - it) for number in machine.numbers()]) for it in range(count)]


def unit_of(groups: List[Group]) -> Fraction:
    """The greatest speed of which that of each group is a multiple: that of the width 1."""
    unit = Fraction(0)
    for it in groups:
        a, b = unit, it.speed
        unit = Fraction(gcd(a.numerator * b.denominator, b.numerator * a.denominator), a.denominator * b.denominator)
    return unit


def text_of(names: List[str], groups: List[Group]) -> str:
    """The text of the topology."""
    unit, lines = unit_of(groups), ["topology 1", " ".join(["nodes", *names])]
    for it in groups:
        width = it.speed / unit
        if width > MOST_WIDTH:
            raise Refused(f"widths in proportion go up to {width} for {it.links[0][0]}, and sccl takes {MOST_WIDTH} at most: "
                          "round the speeds, with --link-speed and --nic-speed")
        lines.append(" ".join([f"group {width}", *(f"{a}>{b}" for a, b in it.links)]))
    return "\n".join([*lines, ""])
