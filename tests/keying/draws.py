"""Searches that are drawn: a topology, a collective, limits and keys, each small enough for the second implementation."""
from __future__ import annotations

import random
from dataclasses import dataclass

from oracle.audit import counts, size
from oracle.collective import ROOTED, STANDARD
from oracle.fault import spelled
from oracle.report import Report
from oracle.topology import Group, Link, Pattern, Topology

KINDS = [*STANDARD, "custom"]
# The combinations of keys: cuts, and the order.
KEYS = [(True, False), (False, True), (True, True), (False, False)]
LARGEST = 4000


@dataclass
class Draw:
    """A search: its words without the keys, its topology, and the keys that stand in its report."""
    number: int
    words: list[str]
    topology: Topology
    has_cuts: bool
    is_ordered: bool

    def __post_init__(self) -> None:
        self.text = spelled(self.topology)
        self.keys = ["cuts=yes"] * self.has_cuts + ["ordered=yes"] * self.is_ordered
        self.name = f"draw {self.number}: {' '.join(self.words[1:] + self.keys)}"

    def values(self) -> dict[str, str]:
        return dict(it.split("=") for it in self.words[1:])

    def report(self) -> Report:
        """A report of this search, in which no candidate stands."""
        values = self.values()
        limits = {it: int(values[it]) for it in ("k", "steps", "chunks", "conflicts")}
        root = self.topology.names.index(values["root"]) if "root" in values else 0
        return Report(values["collective"], limits, root, self.topology, {}, [], self.has_cuts, self.is_ordered)


def drawn(number: int) -> Draw:
    draw = random.Random(number)
    kind, (has_cuts, is_ordered) = KINDS[number % len(KINDS)], KEYS[number // len(KINDS) % len(KEYS)]
    while True:
        topology = topology_drawn(draw, kind)
        found = Draw(number, words_drawn(draw, kind, topology.names), topology, has_cuts, is_ordered)
        report = found.report()
        if size(report) <= LARGEST and list(counts(report, kind)):
            return found


def words_drawn(draw: random.Random, kind: str, names: list[str]) -> list[str]:
    chunks = draw.choice([1, 2, 2, 3, 4])
    if kind == "alltoall":
        # (a chunk for each node, as often as the greatest chunk count allows)
        chunks = len(names) * min(chunks, 16 // len(names))
    limits = {"k": draw.choice([0, 0, 1, 2]), "steps": draw.choice([1, 2, 2, 3, 3]), "chunks": chunks, "conflicts": draw.choice([1, 2, 5, 20, 1000, 1000])}
    root = [f"root={draw.choice(names)}"] if kind in ROOTED else []
    return ["synth", f"collective={kind}", *(f"{key}={it}" for key, it in limits.items()), *root]


def topology_drawn(draw: random.Random, kind: str) -> Topology:
    names = draw.sample("a b c d n0 n1 n2 x_1 left right".split(), draw.choice([2, 3, 3, 4, 4, 5]))
    nodes = range(len(names))
    links = [(a, b) for a in nodes for b in nodes if a != b]
    return Topology(names, draw.choice([of_links, of_links, a_ring, ports, shared])(draw, nodes, links), pattern_drawn(draw, nodes) if kind == "custom" else None)


def of_links(draw: random.Random, nodes: range, links: list[Link]) -> list[Group]:
    """A group for each of some links."""
    return [(draw.choice([1, 1, 2, 3]), [it]) for it in draw.sample(links, draw.randint(len(links) // 2, len(links)))]


def a_ring(draw: random.Random, nodes: range, links: list[Link]) -> list[Group]:
    width = draw.choice([1, 1, 2])
    return [(width, [it]) for it in links if (it[0] - it[1]) % len(nodes) in (1, len(nodes) - 1)]


def ports(draw: random.Random, nodes: range, links: list[Link]) -> list[Group]:
    """A switch: what goes out of each node, and what comes in, in some order."""
    found = [(draw.choice([1, 2]), [it for it in links if it[side] == node]) for side in (0, 1) for node in nodes]
    draw.shuffle(found)
    return found


def shared(draw: random.Random, nodes: range, links: list[Link]) -> list[Group]:
    """Groups of several links, which may stand in several groups."""
    found = [(draw.choice([1, 2, 3, 5]), draw.sample(links, draw.randint(1, len(links)))) for _ in range(draw.randint(1, 5))]
    return found + [(1, [it]) for it in draw.sample(links, draw.randint(0, len(links) // 2))]


def pattern_drawn(draw: random.Random, nodes: range) -> Pattern:
    base = draw.choice([1, 1, 2, 3])
    side = lambda least: {(chunk, node) for chunk in range(base) for node in draw.sample(nodes, draw.randint(least, min(2, len(nodes))))}
    return Pattern(base, side(draw.choice([0, 1, 1, 1])), side(0))
