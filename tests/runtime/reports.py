"""Reports to export: of searches, and of schedules that are made up, each of which a number stands for."""
from __future__ import annotations

import random
import subprocess
import tempfile
from typing import Iterable, List, Optional, Set, Tuple

COLLECTIVES = "broadcast", "gather", "allgather", "scatter", "alltoall", "reduce", "reducescatter", "allreduce"
ROOTED = "broadcast", "gather", "scatter", "reduce"
ADDING = "reduce", "reducescatter", "allreduce"

# A step, a chunk, and the ranks that send and receive it.
Send = Tuple[int, int, int, int]


def searched(program: str, topology: str, words: List[str]) -> bytes:
    """The report of a search; its files are gone."""
    with tempfile.TemporaryDirectory() as folder:
        given = topology.encode()
        ran = subprocess.run([program, "synth", *words], input=given, cwd=folder, stdout=subprocess.PIPE, timeout=300, check=True)
        return ran.stdout


def random_report(program: str, number: int) -> bytes:
    """The report of a search: of the collectives in turn, over a topology that is drawn."""
    drawn = random.Random(number)
    collective = COLLECTIVES[number % len(COLLECTIVES)]
    nodes = [f"n{it}" for it in range(drawn.randint(2, 4 if collective == "alltoall" else 5))]
    chunks = len(nodes) * drawn.randint(1, 2) if collective == "alltoall" else drawn.randint(1, 3)
    words = [f"collective={collective}", f"k={drawn.randint(0, 2)}", f"steps={drawn.randint(2, 3)}", f"chunks={chunks}", "conflicts=50"]
    if collective in ROOTED and drawn.random() < 0.7:
        words.append(f"root={drawn.choice(nodes)}")
    return searched(program, random_topology(drawn, nodes), words)


def random_topology(drawn: random.Random, nodes: List[str]) -> str:
    """Links round a ring, some more, and sometimes a port that several share."""
    links = set(zip(nodes, nodes[1:] + nodes[:1]))
    links |= {(other, one) for one, other in sorted(links) if drawn.random() < 0.8}
    links |= {(a, b) for a in nodes for b in nodes if a != b and drawn.random() < 0.3}
    groups = [(drawn.choice((1, 1, 1, 2, 3)), [link]) for link in sorted(links)]
    if drawn.random() < 0.3:
        node = drawn.choice(nodes)
        groups.append((drawn.randint(1, 2), [it for it in sorted(links) if it[0] == node]))
    rows = [f"group {width} " + " ".join(f"{a}>{b}" for a, b in found) for width, found in groups]
    return "\n".join(["topology 1", "nodes " + " ".join(nodes), *rows, ""])


def made_report(number: int) -> bytes:
    """A report of a schedule that no search would find; it may lack something at the end, if its collective copies."""
    drawn = random.Random(number)
    collective = COLLECTIVES[number % len(COLLECTIVES)]
    ranks = drawn.randint(2, 3 if collective == "alltoall" else 5)
    count = ranks * drawn.randint(1, 2) if collective == "alltoall" else drawn.randint(1, 2)
    chunks = range(count if collective in ("broadcast", "reduce") else count * ranks)
    root = drawn.randrange(ranks) if collective in ROOTED else None
    if collective in ADDING:
        steps, sends = summing(drawn, chunks, ranks, root, collective == "allreduce")
    else:
        first = root if collective in ("broadcast", "scatter") else None
        steps, sends = spreading(drawn, {(it, it % ranks if first is None else first) for it in chunks}, ranks)
    return report_of(collective, ranks, root, count, steps, sends)


def spreading(drawn: random.Random, held: Set[Tuple[int, int]], ranks: int) -> Tuple[int, Set[Send]]:
    """Whoever has a chunk sends it on, also to nodes that have it already; `held` is who has which at the start."""
    sends: Set[Send] = set()
    steps = drawn.randint(2, 5)
    for step in range(1, steps + 1):
        pairs = [(it, a, b) for it, a in sorted(held) for b in range(ranks) if a != b]
        found = [it for it in pairs if drawn.random() < 0.5]
        sends |= {(step, *it) for it in found}
        held = held | {(it, b) for it, _, b in found}
    return steps, sends


def summing(drawn: random.Random, chunks: range, ranks: int, root: Optional[int], is_for_all: bool) -> Tuple[int, Set[Send]]:
    """A tree for each chunk: in an order that is drawn each node but the last sends to a later one. For all, the sums go back."""
    sends, last = set(), 2 * ranks - 2
    for chunk in chunks:
        end = chunk % ranks if root is None else root
        order = drawn.sample([it for it in range(ranks) if it != end], ranks - 1) + [end]
        for place, node in enumerate(order[:-1], 1):
            other = drawn.choice(order[place:])
            sends.add((place, chunk, node, other))
            if is_for_all:
                sends.add((last + 1 - place, chunk, other, node))
    return (last if is_for_all else ranks - 1), sends


def report_of(collective: str, ranks: int, root: Optional[int], count: int, steps: int, sends: Iterable[Send]) -> bytes:
    """The text, over links that are wide enough. Of an allreduce it has one joined point alone."""
    nodes = [f"n{it}" for it in range(ranks)]
    limit = steps // 2 if collective == "allreduce" else steps
    words = f"synth collective={collective} k=0 steps={limit} chunks={count} conflicts=1" + ("" if root is None else f" root={nodes[root]}")
    links = [f"group 16 {a}>{b}" for a in nodes for b in nodes if a != b]
    parts, mark = ["frontier whole"], "open"
    if collective == "allreduce":
        parts, mark = ["frontier reduce", "frontier gather", "joined"], f"joined {limit}"
    rows = [f"send {chunk} {nodes[a]} {nodes[b]} {step}" for step, chunk, a, b in sorted(sends)]
    point = [f"point {steps} {steps} {count} {mark}", "rounds" + " 1" * steps, *rows]
    return "\n".join(["sccl 1", words, "topology 1", "nodes " + " ".join(nodes), *links, *parts, *point, "end", ""]).encode()
