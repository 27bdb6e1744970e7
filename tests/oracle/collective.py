"""Collectives: how many chunks there are, where they are before, and where they, or their sums, have to be."""
from __future__ import annotations

from typing import Set, Tuple

from .topology import Topology

# Steps, rounds and chunks.
Candidate = Tuple[int, int, int]
# Pairs (chunk, node).
Pairs = Set[Tuple[int, int]]

ROOTED = ("broadcast", "gather", "scatter", "reduce")
STANDARD = ("broadcast", "gather", "allgather", "scatter", "alltoall", "reduce", "reducescatter", "allreduce")
ADDING = ("reduce", "reducescatter", "allreduce")
# a reduction is the inverse of this collective
COPY_OF = {"reduce": "broadcast", "reducescatter": "allgather"}


def of_part(kind: str, part: str) -> str:
    """The collective of a part of a report."""
    return {"reduce": "reducescatter", "gather": "allgather"}.get(part, kind)


def allows(kind: str, nodes: int, count: int) -> bool:
    return count >= 1 and (kind != "alltoall" or count % nodes == 0)


def chunks(kind: str, topology: Topology, count: int) -> int:
    if kind == "custom":
        assert topology.pattern
        return count * topology.pattern.base
    return count if kind in ("broadcast", "reduce") else count * len(topology.names)


def pairs(kind: str, root: int, topology: Topology, count: int) -> tuple[Pairs, Pairs]:
    """The pairs (chunk, node) that are held before and those that are demanded; of one that adds, only the latter count, and the
    former are none."""
    if kind == "custom":
        given = topology.pattern
        assert given
        copies = lambda side: {(copy * given.base + chunk, node) for copy in range(count) for chunk, node in side}
        return copies(given.before), copies(given.after)
    nodes, many = len(topology.names), range(chunks(kind, topology, count))
    everywhere = {(it, node) for it in many for node in range(nodes)}
    at_root = {(it, root) for it in many}
    scattered = {(it, it % nodes) for it in many}
    transposed = {(it, it // nodes % nodes) for it in many}
    nowhere: Pairs = set()
    return {
        "broadcast": (at_root, everywhere), "gather": (scattered, at_root), "allgather": (scattered, everywhere),
        "scatter": (at_root, scattered), "alltoall": (scattered, transposed), "reduce": (nowhere, at_root),
        "reducescatter": (nowhere, scattered), "allreduce": (nowhere, everywhere),
    }[kind]
