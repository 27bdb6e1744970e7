"""The replay of a point, with an order or without, and its verdict."""
from __future__ import annotations

from collections import Counter, deque
from collections.abc import Iterator
from itertools import product
from typing import Dict, Tuple

from .collective import ADDING, chunks, of_part, pairs
from .report import Report

# Of each chunk at each node how often each node has contributed.
Store = Dict[Tuple[int, int], Tuple[int, ...]]
# A step, whether it takes, a chunk and the other node.
Operation = Tuple[int, bool, int, int]


class Replay:
    """A point of a report, numbered from 1, and what it stands for."""

    def __init__(self, report: Report, number: int) -> None:
        self.number, self.topology, self.names = number, report.topology, report.topology.names
        part, self.point = report.points()[number - 1]
        kind = of_part(report.kind, part) if part != "joined" else "allreduce"
        steps, _, count = self.point.candidate
        self.nodes, self.chunks = range(len(self.names)), range(chunks(kind, self.topology, count))
        self.copies = kind not in ADDING
        self.adding = 0 if self.copies else self.point.adding or steps
        self.before, self.demand = pairs(kind, report.root, self.topology, count)
        self.stores = [self.start()]
        for step in range(1, steps + 1):
            self.stores.append(self.after(step))

    # ---- stores: of each chunk at each node, how often each node has contributed (of a chunk that is copied, node 0 alone)

    def start(self) -> Store:
        if self.copies:
            return {it: (int(it in self.before),) for it in product(self.chunks, self.nodes)}
        return {(chunk, node): tuple(int(it == node) for it in self.nodes) for chunk, node in product(self.chunks, self.nodes)}

    def after(self, step: int) -> Store:
        old, new = self.stores[-1], dict(self.stores[-1])
        # (sends ascend, so that of several that copy one chunk to one node the greatest sender counts)
        for at, chunk, sender, receiver in self.point.sends:
            bag = old[chunk, sender]
            if at != step:
                continue
            if step <= self.adding:
                new[chunk, receiver] = tuple(a + b for a, b in zip(new[chunk, receiver], bag))
            elif any(bag):
                new[chunk, receiver] = bag
        return new

    # ---- the verdict

    def verdict(self) -> str:
        return next(self.faults(), "holds")

    def faults(self) -> Iterator[str]:
        """What fails, in the order in which it is told."""
        usable, names, point = set(self.topology.usable()), self.names, self.point
        for step, chunk, a, b in point.sends:
            if (a, b) not in usable:
                yield f"nolink {chunk} {names[a]} {names[b]} {step}"
        for step, rounds in enumerate(point.rounds, 1):
            for place, (width, links) in enumerate(self.topology.groups):
                load = sum(it[0] == step and it[2:] in links for it in point.sends)
                if load > width * rounds:
                    yield f"overfull {step} {place} {load}"
        if not self.copies:
            brought = Counter((step, chunk, b) for step, chunk, _, b in point.sends if step > self.adding)
            for step, chunk, node in sorted(it for it, times in brought.items() if times > 1):
                yield f"clash {chunk} {names[node]} {step}"
        for chunk, node in sorted(self.demand):
            for other, times in enumerate(self.stores[-1][chunk, node]):
                if self.copies and not times:
                    yield f"lacking {chunk} {names[node]}"
                elif not self.copies and times != 1:
                    yield f"{'twice' if times else 'missing'} {chunk} {names[node]} {names[other]}"

    # ---- the text

    def text(self, order: int | None = None) -> bytes:
        rows = [f"replay {self.number}"]
        for step, store in enumerate(self.stores):
            rows += [f"step {step}", *self.holders(store)]
        rows.append(self.verdict())
        if order is not None and rows[-1] == "holds":
            moves, last = self.moves(order)
            rows += [f"order {order}", f"events {len(moves)}", " ".join(["moves", *(self.names[it] for it in moves)]), *self.holders(last)]
        return "".join(f"{it}\n" for it in [*rows, "end"]).encode()

    def holders(self, store: Store) -> Iterator[str]:
        for node in self.nodes:
            if self.copies:
                held = [str(it) for it in self.chunks if any(store[it, node])]
            else:
                held = [f"{it}={''.join(str(min(2, times)) for times in store[it, node])}" for it in self.chunks]
            yield " ".join([self.names[node], *held])

    # ---- programs, and their run in an order

    def programs(self) -> list[list[Operation]]:
        """For each node its operations: step, whether it takes, chunk, and the other node."""
        found: list[list[Operation]] = [[] for _ in self.nodes]
        for step, chunk, a, b in self.point.sends:
            found[a].append((step, False, chunk, b))
            found[b].append((step, True, chunk, a))
        return [sorted(it) for it in found]

    def programs_text(self) -> bytes:
        rows = [f"programs {self.number}"]
        for node, operations in enumerate(self.programs()):
            rows.append(f"node {self.names[node]}")
            for step, takes, chunk, other in operations:
                how = " add" if step <= self.adding else " copy"
                rows.append(f"{step} {'take' if takes else 'send'} {chunk} {self.names[other]}{how if takes else ''}")
        return "".join(f"{it}\n" for it in [*rows, "end"]).encode()

    def moves(self, seed: int) -> tuple[list[int], Store]:
        """The nodes that move, one operation at a time, as the seed draws them, and the store at the end."""
        left, store = [deque(it) for it in self.programs()], self.start()
        moves: list[int] = []
        queues: dict[tuple[int, int], deque[tuple[int, int, tuple[int, ...]]]] = {}
        queue = lambda a, b: queues.setdefault((a, b), deque())

        def is_enabled(node: int) -> bool:
            if not left[node]:
                return False
            step, takes, chunk, other = left[node][0]
            waiting = queue(other, node)
            return not takes or bool(waiting) and waiting[0][:2] == (step, chunk)

        while any(left):
            seed = (6364136223846793005 * seed + 1442695040888963407) % 2**64
            enabled = [it for it in self.nodes if is_enabled(it)]
            node = enabled[(seed >> 33) % len(enabled)]
            moves.append(node)
            step, takes, chunk, other = left[node].popleft()
            if not takes:
                queue(node, other).append((step, chunk, store[chunk, node]))
                continue
            bag = queue(other, node).popleft()[2]
            if step <= self.adding:
                store[chunk, node] = tuple(a + b for a, b in zip(store[chunk, node], bag))
            elif any(bag):
                store[chunk, node] = bag
        return moves, store
