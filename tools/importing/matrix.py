"""The matrices of `nvidia-smi topo -m` and of `rocm-smi --showtopotype`: a row and a column for each accelerator."""
from __future__ import annotations

import re
from typing import Dict, List, Optional, Set, Tuple

from .machine import Card, Machine, Refused, symmetric

# No accelerator has more lanes than this, so where each pair had that many of its own, a switch is between them.
MOST_LANES = 18
# How far a network card is by the kind of the way to it, from one bridge to the link between sockets.
DISTANCES = {"PIX": 0, "PXB": 1, "PHB": 2, "NODE": 3, "SYS": 4, "SOC": 4}
NO_LANES = {*DISTANCES, "X", "0", "PCIE", "N/A"}
ACCELERATOR = re.compile(r"GPU\d+")
LANES = re.compile(r"NV(\d{1,3})")
UNDERLINED = re.compile(r"\x1b\[[\d;]*m")
# The title of the one table of rocm-smi that tells of links.
LINK_TABLE = "Link Type between two GPUs"

Rows = List[Tuple[int, List[str]]]


def machine_of_matrix(text: str, has_switch: Optional[bool] = None) -> Machine:
    """The machine of a matrix. Unless it is told whether there is a switch, there is one where no accelerator could have all the lanes."""
    head, rows = table_of(text)
    names = [it for it in head if ACCELERATOR.fullmatch(it)]
    place = {it: number for number, it in enumerate(names)}
    if len(place) < len(names):
        raise Refused("an accelerator stands twice in the head of the matrix")
    cells, lines = cells_of(head, rows, place)
    lanes = {(place[a], place[b]): count for (a, b), (line, kind) in cells.items() if b in place
             for count in [lanes_of(kind, line)] if count}
    symmetric(lanes, names, [lines[it] for it in names])
    cards = [Card(it, None, [distance(*cells[name, it]) for name in names]) for it in head if it not in place]
    machine = Machine([it.lower() for it in names], lanes, [0] * len(names), cards)
    return behind_switch(machine) if has_switch or has_switch is None and needs_switch(machine) else machine


def table_of(text: str) -> Tuple[List[str], Rows]:
    """The names at the head of the columns, and the words of the lines behind the head, each with its number."""
    lines = UNDERLINED.sub("", text).split("\n")
    begin = next((at for at, it in enumerate(lines) if LINK_TABLE in it), 0)
    rows = [(number, it.split()) for number, it in enumerate(lines, 1) if number > begin and it.strip()]
    at = next((at for at, (_, words) in enumerate(rows) if words[0] == "GPU0" and "X" not in words and "0" not in words), None)
    if at is None:
        raise Refused("no line has the names of accelerators from GPU0 on at the head of columns")
    head = rows[at][1]
    # (behind the devices stand columns like `CPU Affinity`)
    end = next((number for number, it in enumerate(head) if it in ("CPU", "NUMA", "GPU")), len(head))
    return head[:end], rows[at + 1:]


def cells_of(head: List[str], rows: Rows, place: Dict[str, int]) -> Tuple[Dict[Tuple[str, str], Tuple[int, str]], Dict[str, int]]:
    """What stands in the row of each accelerator below each name of the head, with its line; and the line of each row."""
    cells: Dict[Tuple[str, str], Tuple[int, str]] = {}
    lines: Dict[str, int] = {}
    for number, (name, *words) in rows:
        if name not in place or name in lines:
            continue
        if len(words) < len(head):
            raise Refused(f"the row of {name} has {len(words)} columns, and the head has {len(head)}", number)
        lines[name] = number
        cells.update(((name, to), (number, kind)) for to, kind in zip(head, words))
    lacking = next((it for it in place if it not in lines), None)
    if lacking:
        raise Refused(f"{lacking} has no row")
    return cells, lines


def lanes_of(kind: str, line: int) -> int:
    """How many lanes a word of the matrix says there are."""
    found = LANES.fullmatch(kind)
    if found:
        return int(found[1])
    if kind == "XGMI":
        return 1
    if kind not in NO_LANES:
        raise Refused(f"{kind} is no kind of connection", line)
    return 0


def distance(line: int, kind: str) -> int:
    if kind not in DISTANCES:
        raise Refused(f"{kind} is no way to a network card", line)
    return DISTANCES[kind]


def needs_switch(machine: Machine) -> bool:
    """Whether each pair has the same count of lanes, and an accelerator would have more than there are if these were its own."""
    counts = counts_of(machine)
    return len(counts) == 1 and max(counts) * (len(machine.names) - 1) > MOST_LANES


def counts_of(machine: Machine) -> Set[int]:
    """The counts of lanes that pairs of accelerators have."""
    return {machine.lanes.get((a, b), 0) for a in machine.numbers() for b in machine.numbers() if a != b}


def behind_switch(machine: Machine) -> Machine:
    """The machine whose lanes, which are alike for all pairs, all go to a switch."""
    counts = counts_of(machine)
    if len(counts) != 1:
        raise Refused("not all pairs of accelerators have the same count of lanes, so one switch does not join them")
    return Machine(machine.names, {}, [max(counts)] * len(machine.names), machine.cards, machine.lane_speed)
