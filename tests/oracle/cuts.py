"""Cuts: the sets of nodes into which more has to come than can, and the floor that they give."""
from __future__ import annotations

from collections.abc import Callable, Iterator
from fractions import Fraction
from itertools import combinations, count
from typing import List, Set, Tuple

from .collective import COPY_OF, allows, pairs
from .formula import turned_round
from .topology import Link, Topology

# Groups, each a width and the links that come in.
Incoming = List[Tuple[int, Set[Link]]]


class Cuts:
    """The cuts of a collective over a topology, at the sets that are listed, or at all. Those of a reduction are its copy's over the
    links turned round."""

    def __init__(self, kind: str, root: int, topology: Topology, at_all: bool = False) -> None:
        if kind in COPY_OF:
            kind, topology = COPY_OF[kind], turned_round(topology)
        self.kind, self.root, self.topology = kind, root, topology
        nodes = range(len(topology.names))
        small = [*({it} for it in nodes), *(set(it) for it in combinations(nodes, 2))]
        self.listed = small + [set(nodes) - it for it in small]
        self.covers: list[Callable[[Incoming], Iterator[int]]] = [in_order]
        if at_all:
            self.listed = [{it for it in nodes if number >> it & 1} for number in range(1, 1 << len(nodes))]
            self.covers = [in_order, in_reverse, greedy]
        self.widths: dict[frozenset[int], int] = {}

    def need(self, inside: set[int], many: int) -> int:
        """How many chunks have to come in, where the chunk count is this."""
        before, after = pairs(self.kind, self.root, self.topology, many)
        return len({chunk for chunk, node in after if node in inside} - {chunk for chunk, node in before if node in inside})

    def width(self, inside: set[int]) -> int:
        """How many chunks can come in in a round: the least of what the covers carry."""
        key = frozenset(inside)
        if key not in self.widths:
            groups = [(width, {(a, b) for a, b in links if a not in inside and b in inside}) for width, links in self.topology.groups]
            self.widths[key] = min(sum(cover(groups)) for cover in self.covers)
        return self.widths[key]

    def names(self, inside: set[int]) -> list[str]:
        return [self.topology.names[it] for it in sorted(inside)]

    def first(self, rounds: int, many: int) -> list[str] | None:
        """The names of the first set that refutes so many rounds, or None."""
        found = (it for it in self.listed if self.need(it, many) > self.width(it) * rounds)
        inside = next(found, None)
        return None if inside is None else self.names(inside)

    def floor(self) -> list[str]:
        """The numbers and the names of the first set whose fraction is greatest."""
        least = next(it for it in count(1) if allows(self.kind, len(self.topology.names), it))
        best: tuple[int, int, set[int]] = (0, 1, set())
        for inside in self.listed:
            above, below = self.need(inside, least), self.width(inside) * least
            if above > 0 and (best[0] == 0 or above * best[1] > best[0] * below):
                best = (above, below, inside)
        return [str(best[0]), str(best[1]), *self.names(best[2])]


# ---- covers: the widths of the groups that are taken, of groups that each have a width and the links that come in


def in_order(groups: Incoming) -> Iterator[int]:
    taken: set[Link] = set()
    for width, links in groups:
        if links - taken:
            taken |= links
            yield width


def in_reverse(groups: Incoming) -> Iterator[int]:
    return in_order(groups[::-1])


def greedy(groups: Incoming) -> Iterator[int]:
    """Each time the first of those that have the most links for their width that are in no group taken before."""
    taken: set[Link] = set()
    while any(links - taken for _, links in groups):
        width, links = max(groups, key=lambda it: Fraction(len(it[1] - taken), it[0]))
        taken |= links
        yield width
