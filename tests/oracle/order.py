"""Schedules in which chunks that are alike come in the order of their numbers."""
from __future__ import annotations

from itertools import combinations

from .collective import COPY_OF, Pairs, chunks, pairs
from .report import Point, Report, Send


def copying(kind: str, point: Point) -> tuple[str, list[Send]]:
    """The collective that is searched, and the sends as it has them: of a reduction the inverse, from the last step to the first."""
    if kind not in COPY_OF:
        return kind, point.sends
    last = point.candidate[0] + 1
    return COPY_OF[kind], sorted((last - step, chunk, receiver, sender) for step, chunk, sender, receiver in point.sends)


def holders(before: Pairs, sends: list[Send], steps: int) -> list[Pairs]:
    """The pairs (chunk, node) that are held after each step, from none on."""
    found = [set(before)]
    for step in range(1, steps + 1):
        found.append(found[-1] | {(chunk, b) for at, chunk, a, b in sends if at == step and (chunk, a) in found[-1]})
    return found


def is_ordered(report: Report, point: Point) -> bool:
    """Whether of any two chunks that are alike, the lesser is at the least node that waits for them wherever the greater is."""
    steps, _, count = point.candidate
    kind, sends = copying(report.kind, point)
    before, demand = pairs(kind, report.root, report.topology, count)
    places = lambda side, it: {node for chunk, node in side if chunk == it}
    after = holders(before, sends, steps)
    for first, second in combinations(range(chunks(kind, report.topology, count)), 2):
        if any(places(side, first) != places(side, second) for side in (before, demand)):
            continue
        waiting = places(demand, first) - places(before, first)
        if waiting and any((second, min(waiting)) in held and (first, min(waiting)) not in held for held in after):
            return False
    return True
