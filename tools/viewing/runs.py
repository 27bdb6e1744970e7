"""What the schedule of a point does: what each node has after each step, and how many sends cross each group of links."""
from __future__ import annotations

from collections import Counter
from itertools import product
from typing import Any, Dict, List, Tuple

from .report_text import Value

# What each node has of each chunk.
Store = Dict[Tuple[int, str], List[int]]
ADDING = "reduce", "reducescatter", "allreduce"
OF_PART = {"reduce": "reducescatter", "gather": "allgather"}


class Run:
    """A point of a part, and what its schedule does. What a node has of a chunk is a list of counts, one for each contributor: of
    a chunk that is copied one count, of one that is added up a count for each node."""

    def __init__(self, report: Value, part: str, point: Value) -> None:
        self.part, self.point = part, point
        self.collective = OF_PART.get(part, report["words"]["collective"])
        self.nodes, self.groups = report["topology"]["nodes"], report["topology"]["groups"]
        self.copies = self.collective not in ADDING
        self.adding = 0 if self.copies else point.get("adding", point["s"])
        self.steps = range(1, point["s"] + 1)
        self.sends: list[list[Any]] = [[] for _ in range(point["s"] + 1)]
        for it in point["sends"]:
            self.sends[it[3]].append(it)
        self.crossing = Counter((step, sender, receiver) for _, sender, receiver, step in point["sends"])
        before, after = placements(self.collective, report["words"].get("root"), report["topology"], point["c"])
        self.chunks = range(len(after))
        self.demand = {(chunk, node) for chunk in self.chunks for node in after[chunk]}
        self.stores = [self.start(before)]
        for step in self.steps:
            self.stores.append(self.after(step))

    def start(self, before: list[list[str]]) -> Store:
        pairs = product(self.chunks, self.nodes)
        if self.copies:
            return {(chunk, node): [int(node in before[chunk])] for chunk, node in pairs}
        return {(chunk, node): [int(it == node) for it in self.nodes] for chunk, node in pairs}

    def after(self, step: int) -> Store:
        """Where sends of a step that copies bring one chunk to one node, that of the last sender counts that has anything."""
        old, new = self.stores[-1], dict(self.stores[-1])
        for chunk, sender, receiver, _ in self.sends[step]:
            bag = old[chunk, sender]
            if step <= self.adding:
                new[chunk, receiver] = [one + other for one, other in zip(new[chunk, receiver], bag)]
            elif any(bag):
                new[chunk, receiver] = bag
        return new

    def has(self, step: int, node: str) -> list[int]:
        """The chunks of which the node has anything after the step."""
        return [it for it in self.chunks if any(self.stores[step][it, node])]

    def is_whole(self, step: int, chunk: int, node: str) -> bool:
        """Whether the node has the chunk or, where it is added up, each contribution to it exactly once."""
        return all(it == 1 for it in self.stores[step][chunk, node])

    def told(self, step: int, node: str) -> list[str]:
        """What the node has after the step, in the words of a replay."""
        if self.copies:
            return [str(it) for it in self.has(step, node)]
        return [f"{it}={''.join(str(min(2, count)) for count in self.stores[step][it, node])}" for it in self.chunks]

    def load(self, step: int, group: Value) -> tuple[int, int]:
        """How many sends of the step cross the group, and how many may."""
        return sum(self.crossing[step, a, b] for a, b in group["links"]), group["width"] * self.point["rounds"][step - 1]


def placements(collective: str, root: str | None, topology: Value, count: int) -> tuple[list[list[str]], list[list[str]]]:
    """For each chunk the nodes that have it before, and those that have to have it, or its sum, after."""
    nodes = topology["nodes"]
    if collective == "custom":
        return topology["custom"]["before"] * count, topology["custom"]["after"] * count
    chunks = range(count if collective in ("broadcast", "reduce") else count * len(nodes))
    at_root = [[root or nodes[0]] for _ in chunks]
    everywhere = [nodes for _ in chunks]
    scattered = [[nodes[it % len(nodes)]] for it in chunks]
    transposed = [[nodes[it // len(nodes) % len(nodes)]] for it in chunks]
    return {
        "broadcast": (at_root, everywhere), "gather": (scattered, at_root), "allgather": (scattered, everywhere),
        "scatter": (at_root, scattered), "alltoall": (scattered, transposed), "reduce": (everywhere, at_root),
        "reducescatter": (everywhere, scattered), "allreduce": (everywhere, everywhere),
    }[collective]
