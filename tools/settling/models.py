"""The schedule that a model of a candidate's formula stands for (docs/FORMATS.md, "Formulas")."""
from __future__ import annotations

from typing import Any, Dict, List, Set, Tuple

from reporting.order import Candidate
from viewing.runs import OF_PART, placements

# A sum is sought by copying over the links turned round; its schedule goes through the copies backwards.
COPY_OF = {"reduce": "broadcast", "reducescatter": "allgather"}
Send = Tuple[int, int, int, int]  # the step, the chunk, the sender and the receiver, nodes by number


def point_of(report: Dict[str, Any], part: str, candidate: Candidate, true: Set[int]) -> Dict[str, Any]:
    """The point, marked as open, that the true variables of a model make, without sends that bring nothing to where it is due."""
    collective = OF_PART.get(part, report["words"]["collective"])
    is_turned, collective = collective in COPY_OF, COPY_OF.get(collective, collective)
    topology, (steps, rounds, count) = report["topology"], candidate
    nodes = topology["nodes"]
    _, after = placements(collective, report["words"].get("root"), topology, count)
    links = sorted({(nodes.index(a), nodes.index(b)) for it in topology["groups"] for a, b in it["links"]})
    links = sorted((b, a) for a, b in links) if is_turned else links
    sends = needed(sends_of(len(after), len(nodes), links, steps, true), [[nodes.index(it) for it in due] for due in after])
    found = rounds_of(len(after) * (len(nodes) * (steps + 1) + len(links) * steps), steps, rounds, true)
    if is_turned:
        sends, found = [(steps + 1 - step, chunk, b, a) for step, chunk, a, b in sends], found[::-1]
    told = [[chunk, nodes[a], nodes[b], step] for step, chunk, a, b in sorted(sends)]
    return {"s": steps, "r": rounds, "c": count, "mark": "open", "rounds": found, "sends": told}


def sends_of(chunks: int, nodes: int, links: List[Tuple[int, int]], steps: int, true: Set[int]) -> List[Send]:
    """The sends that are true: their variables come behind those of who has what."""
    first = chunks * nodes * (steps + 1) + 1
    numbers = (it - first for it in true if first <= it < first + chunks * len(links) * steps)
    found = ((it // steps // len(links), it // steps % len(links), it % steps + 1) for it in numbers)
    return sorted((step, chunk, *links[link]) for chunk, link, step in found)


def rounds_of(before: int, steps: int, rounds: int, true: Set[int]) -> List[int]:
    """The rounds of each step: one and its extra rounds that are true, and the last has what is lacking."""
    extra = rounds - steps
    found = [1 + sum(before + 1 + step * extra + it in true for it in range(extra)) for step in range(steps)]
    found[-1] += rounds - sum(found)
    return found


def needed(sends: List[Send], after: List[List[int]]) -> List[Send]:
    """The sends that bring a chunk to a node which has to have it, or sends it on. Each comes to a node once."""
    due = {(chunk, node) for chunk, nodes in enumerate(after) for node in nodes}
    found = []
    for it in sorted(sends, reverse=True):
        _, chunk, sender, receiver = it
        if (chunk, receiver) in due:
            due.add((chunk, sender))
            found.append(it)
    return found
