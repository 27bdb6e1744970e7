"""The formula of a candidate: its variables, its clauses in their order, and its text."""
from __future__ import annotations

from itertools import combinations, count, product

from .collective import COPY_OF, Candidate, Pairs, chunks, pairs
from .topology import Topology


def turned_round(topology: Topology) -> Topology:
    return Topology(topology.names, [(width, [(b, a) for a, b in links]) for width, links in topology.groups], topology.pattern)


class Formula:
    """The formula that is satisfiable exactly where a schedule solves the candidate. A reduction is sought by copying. The clauses of
    the order stand behind it where they are asked for."""

    def __init__(self, kind: str, root: int, topology: Topology, candidate: Candidate, is_ordered: bool = False) -> None:
        if kind in COPY_OF:
            kind, topology = COPY_OF[kind], turned_round(topology)
        self.topology, (self.steps, rounds, many) = topology, candidate
        self.before, self.after = pairs(kind, root, topology, many)
        self.chunks, self.nodes = range(chunks(kind, topology, many)), range(len(topology.names))
        self.links, self.extra = topology.usable(), rounds - self.steps
        self.clauses: list[tuple[int, ...]] = []
        self.turns = range(1, self.steps + 1)
        self.number_variables()
        self.sending()
        self.rounding()
        if is_ordered:
            self.ordering()

    def number_variables(self) -> None:
        number = count(1)
        self.has = {it: next(number) for it in product(self.chunks, self.nodes, range(self.steps + 1))}
        self.sends = {it: next(number) for it in product(self.chunks, self.links, self.turns)}
        self.more = {it: next(number) for it in product(self.turns, range(1, self.extra + 1))}
        self.variables = len(self.has) + len(self.sends) + len(self.more)

    def add(self, *literals: int) -> None:
        self.clauses.append(literals)

    def into(self, chunk: int, node: int, step: int) -> list[int]:
        return [self.sends[chunk, link, step] for link in self.links if link[1] == node]

    def sending(self) -> None:
        has, turns = self.has, self.turns
        places = list(product(self.chunks, self.nodes))
        for c, n in places:
            self.add(has[c, n, 0] if (c, n) in self.before else -has[c, n, 0])
        for c, n, s in product(self.chunks, self.nodes, turns):
            self.add(-has[c, n, s - 1], has[c, n, s])
        for c, n in places:
            if (c, n) in self.after:
                self.add(has[c, n, self.steps])
        for c, (a, b), s in product(self.chunks, self.links, turns):
            sent = self.sends[c, (a, b), s]
            self.add(-sent, has[c, a, s - 1])
            self.add(-sent, -has[c, b, s - 1])
            self.add(-sent, has[c, b, s])
        for c, n, s in product(self.chunks, self.nodes, turns):
            self.add(has[c, n, s - 1], -has[c, n, s], *self.into(c, n, s))
        for c, n, s in product(self.chunks, self.nodes, turns):
            for one, other in combinations(self.into(c, n, s), 2):
                self.add(-one, -other)

    def rounding(self) -> None:
        """Extra rounds of a step are used in order, all together are not too many, and each group carries what its rounds allow."""
        more, extra = self.more, self.extra
        for s, j in product(self.turns, range(1, extra)):
            self.add(-more[s, j + 1], more[s, j])
        if extra:
            outputs = self.counter(list(more.values()), extra + 1)
            self.add(-outputs[extra])
        for s, (width, links) in product(self.turns, self.topology.groups):
            inputs = [self.sends[c, link, s] for c in self.chunks for link in links]
            outputs = self.counter(inputs, width * (1 + extra) + 1)
            for j in range(1, extra + 1):
                self.add(-outputs[width * j], more[s, j])
            self.add(-outputs[width * (1 + extra)])

    def ordering(self) -> None:
        """Of chunks that are alike, each comes to the node that waits for them no later than the next."""
        def places(side: Pairs, it: int) -> frozenset[int]:
            return frozenset(node for chunk, node in side if chunk == it)

        classes: dict[tuple[frozenset[int], frozenset[int]], list[int]] = {}
        for it in self.chunks:
            classes.setdefault((places(self.before, it), places(self.after, it)), []).append(it)
        for (held, due), alike in classes.items():
            waiting = due - held
            for c, d in zip(alike, alike[1:]) if waiting else ():
                for s in self.turns:
                    self.add(-self.has[d, min(waiting), s], self.has[c, min(waiting), s])

    def counter(self, inputs: list[int], most: int) -> list[int]:
        """A totalizer that counts up to `most`: a node of the tree sums its two sides. The root alone has all outputs."""
        half = len(inputs) // 2
        return self.sum(self.tree(inputs[:half], most), self.tree(inputs[half:], most), most, most)

    def tree(self, inputs: list[int], most: int) -> list[int]:
        if len(inputs) < 2:
            return inputs
        half = len(inputs) // 2
        return self.sum(self.tree(inputs[:half], most), self.tree(inputs[half:], most), most, min(most, len(inputs)))

    def sum(self, left: list[int], right: list[int], most: int, many: int) -> list[int]:
        own = [self.variables + it for it in range(1, many + 1)]
        self.variables += many
        for i in range(len(left) + 1):
            for j in range(len(right) + 1):
                if 0 < i + j <= most:
                    self.add(*(-it for it in left[:i][-1:] + right[:j][-1:]), own[i + j - 1])
        return own

    def text(self) -> bytes:
        rows = [f"p cnf {self.variables} {len(self.clauses)}", *(" ".join(map(str, [*it, 0])) for it in self.clauses)]
        return "".join(f"{it}\n" for it in rows).encode()
