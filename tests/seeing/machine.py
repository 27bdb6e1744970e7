"""Holds the drawing of a topology to the topology: widths, dashes, ends of arrows, ports, and that nothing hides another."""
from __future__ import annotations

import re
from collections.abc import Sequence
from itertools import combinations
from typing import Tuple

from oracle.report import Report
from oracle.topology import Topology
from tried import Count

from .tree import Node

# The middle of a box, half its width and half its height; and the names of the nodes of a link.
Box = Tuple[float, float, float, float]
Ends = Tuple[str, str]
LETTER = 7.5
# What stands on one row of the drawing of a torus, and what stands together in clusters.
ROWS = {"torus-4-by-4": [[f"n{row * 4 + it}" for it in range(4)] for row in range(4)]}
CLUSTERS = {
    "hybrid-cube-mesh": ["g0 g1 g2 g3", "g4 g5 g6 g7"], "two-boxes": ["a0 a1 a2 a3", "b0 b1 b2 b3"],
}


def numbers(text: str) -> list[float]:
    return [float(it) for it in re.findall(r"-?[\d.]+", text)]


def box_of(node: Node) -> Box:
    """The middle of a node's box, half its width and half its height."""
    x, y, wide, high = (float(node.one("rect").attributes[it]) for it in ("x", "y", "width", "height"))
    return x + wide / 2, y + high / 2, wide / 2, high / 2


def label_box(label: Node) -> Box:
    x, y = float(label.attributes["x"]), float(label.attributes["y"]) - 4
    return x, y, LETTER * len(label.text()) / 2, 6


def hides(one: Box, other: Box) -> bool:
    return abs(one[0] - other[0]) < one[2] + other[2] - 1 and abs(one[1] - other[1]) < one[3] + other[3] - 1


def reaches(place: Sequence[float], box: Box) -> float:
    """How far a place is outside a box."""
    return max(abs(place[0] - box[0]) - box[2], abs(place[1] - box[1]) - box[3])


def is_at(place: Sequence[float], box: Box) -> bool:
    return -1 < reaches(place, box) < 6


def check_machine(name: str, page: Node, report: Report, count: Count) -> None:
    picture, topology = page.one("svg", class_="topology"), report.topology
    names = topology.names
    boxes = {it.attributes["data-node"]: box_of(it) for it in picture.all("g", class_="machine")}
    count.equal(f"{name}: nodes", [it.text() for it in picture.all("g", class_="machine")], names)
    count.equal(f"{name}: nodes hide no other", [it for it in combinations(names, 2) if hides(boxes[it[0]], boxes[it[1]])], [])
    hubs = list(picture.all("g", class_="shared-groups"))
    labels = [label_box(it) for it in picture.all("text", class_="small halo beside")]
    solid = [*boxes.values(), *(box_of(it) for it in hubs)]
    count.equal(f"{name}: labels hide nothing", [it for place, it in enumerate(labels) if any(hides(it, other) for other in solid + labels[:place])], [])
    left, top, wide, high = numbers(picture.attributes["viewbox"])
    outside = [it for it in solid + labels if it[0] - it[2] < left or it[0] + it[2] > left + wide or it[1] - it[3] < top or it[1] + it[3] > top + high]
    count.equal(f"{name}: nothing is cut", outside, [])
    paths = [it.attributes["d"] for it in picture.all("path")]
    beyond = [it for it in paths if any(not (left < x < left + wide and top < y < top + high) for x, y in along(numbers(it)))]
    count.equal(f"{name}: no line is cut", beyond, [])
    count.equal(f"{name}: lines have heads", [it for it in picture.all("path") if it.attributes.get("marker-end") != "url(#head)"], [])
    groups = {(names[a], names[b]): [it for it, (_, links) in enumerate(topology.groups) if (a, b) in links] for a, b in topology.usable()}
    lines = [it for it in picture.all("g") if it.attributes["class"] in ("link", "link shared")]
    told = sorted(it.title() for it in lines)
    through = check_hubs(name, picture, hubs, boxes, topology, count)
    words = lambda found: ", ".join(f"group {it} of width {topology.groups[it][0]}" for it in found)
    count.equal(f"{name}: links", told, sorted(f"{a} to {b}: {words(found)}" for (a, b), found in groups.items() if (a, b) not in through))
    beside = {it.attributes["data-of"]: it for it in picture.all("text", class_="small halo beside")}
    for it in lines:
        check_link(name, it, beside.get(it.title()), boxes, groups, topology, count)
    check_places(name, boxes, count)


def check_link(name: str, link: Node, label: Node | None, boxes: dict[str, Box], groups: dict[Ends, list[int]], topology: Topology, count: Count) -> None:
    a, b = link.attributes["data-link"].split(" ")
    found = groups[a, b]
    width, is_shared = min(topology.groups[it][0] for it in found), any(len(topology.groups[it][1]) > 1 for it in found)
    path = link.one("path").attributes
    places = numbers(path["d"])
    ends = is_at(places[:2], boxes[a]), is_at(places[-2:], boxes[b])
    count.equal(f"{name}: {a} to {b}: ends", ends, (True, True))
    count.equal(f"{name}: {a} to {b}: width and dashes", (float(path["stroke-width"]), link.attributes["class"]),
                (round(1 + 0.8 * (min(width, 8) - 1), 1), "link shared" if is_shared else "link"))
    hidden = [node for node, (x, y, wide, high) in boxes.items() if node not in (a, b) and any(abs(at[0] - x) < wide and abs(at[1] - y) < high for at in along(places))]
    count.equal(f"{name}: {a} to {b}: it goes over no node", hidden, [])
    if label:
        said = " ".join(f"g{it}" for it in found) if is_shared else str(width)
        count.equal(f"{name}: {a} to {b}: its label", label.text(), said)
        xs, ys, (x, y, _, _) = places[::2], places[1::2], label_box(label)
        count.equal(f"{name}: {a} to {b}: its label is beside it", min(xs) - 9 <= x <= max(xs) + 9 and min(ys) - 9 <= y <= max(ys) + 9, True)
    elif "L" not in path["d"] and name.startswith(tuple(CLUSTERS)) and not is_shared:
        count.equal(f"{name}: {a} to {b}: its width stands there", width, 1)


def along(places: list[float]) -> list[tuple[float, float]]:
    """Places along a bent line, or along a line with corners."""
    if len(places) == 6:
        (x, y), (mid_x, mid_y), (to_x, to_y) = places[:2], places[2:4], places[4:]
        weights = [((1 - it) ** 2, 2 * it * (1 - it), it ** 2) for it in (part / 40 for part in range(41))]
        return [(one * x + two * mid_x + three * to_x, one * y + two * mid_y + three * to_y) for one, two, three in weights]
    return list(zip(places[::2], places[1::2]))


def check_hubs(name: str, picture: Node, hubs: list[Node], boxes: dict[str, Box], topology: Topology, count: Count) -> set[Ends]:
    """The links that go through ports of hubs."""
    through, ports = set(), [(it.attributes["data-port"].split(" "), it) for it in picture.all("g", class_="port")]
    for hub in hubs:
        groups = list(map(int, hub.attributes["data-groups"].split(" ")))
        links = {(topology.names[a], topology.names[b]) for it in groups for a, b in topology.groups[it][1]}
        inner = [it for it in groups if f"g{it}: {topology.groups[it][0]}" in hub.text()]
        its = [(side, node, line) for (side, node, *found), line in ports if list(map(int, found)) == groups]
        if its:
            ends = {(side, node) for side, node, _ in its}
            count.equal(f"{name}: ports", ends, {("out", a) for a, _ in links} | {("in", b) for _, b in links})
            through |= links
        else:
            count.equal(f"{name}: a hub without ports has its groups in it", (inner, ".." in hub.text()), (groups[:3], len(groups) > 3))
        for side, node, line in its:
            check_port(f"{name}: {side} of {node}", side, node, line, box_of(hub), boxes, (groups, links, topology), count)
    return through


def check_port(name: str, side: str, node: str, line: Node, hub: Box, boxes: dict[str, Box], of: tuple[list[int], set[Ends], Topology], count: Count) -> None:
    groups, links, topology = of
    path = line.one("path").attributes
    places = numbers(path["d"])
    near, far = (places[:2], places[-2:]) if side == "out" else (places[-2:], places[:2])
    count.equal(f"{name}: ends", (is_at(near, boxes[node]), reaches(far, hub) < 12), (True, True))
    mine = {it for it in links if it[side == "in"] == node}
    of_each = [{it for it in links if it[side == "in"] == other} for other in {it[side == "in"] for it in links}]
    whole = [it for it in groups if all(its <= named(it, topology) or not its & named(it, topology) for its in of_each)]
    own = [it for it in whole if mine <= named(it, topology) != links]
    width = min(topology.groups[it][0] for it in own or groups)
    count.equal(f"{name}: width", float(path["stroke-width"]), round(1 + 0.8 * (min(width, 8) - 1), 1))
    said = ", ".join(f"group {it} of width {topology.groups[it][0]}" for it in own) or "no port of its own"
    count.equal(f"{name}: in words", line.title(), f"{node} {side}: {said}")


def named(group: int, topology: Topology) -> set[Ends]:
    return {(topology.names[a], topology.names[b]) for a, b in topology.groups[group][1]}


def check_places(name: str, boxes: dict[str, Box], count: Count) -> None:
    """A torus is a grid; what is closely linked stands together."""
    for kind, rows in ROWS.items():
        if name.startswith(kind):
            count.equal(f"{name}: rows", [len({boxes[it][1] for it in row}) for row in rows], [1] * len(rows))
            columns = list(zip(*rows))
            count.equal(f"{name}: columns", [len({boxes[it][0] for it in column}) for column in columns], [1] * len(columns))
            ascending = [sorted(row, key=lambda it: boxes[it][0]) == list(row) for row in rows]
            count.equal(f"{name}: from left to right", ascending, [True] * len(rows))
    for kind, clusters in CLUSTERS.items():
        if name.startswith(kind):
            spans = [(min(boxes[it][0] for it in found.split()), max(boxes[it][0] for it in found.split())) for found in clusters]
            count.equal(f"{name}: clusters stand apart", [one[1] + 50 < other[0] for one, other in zip(spans, spans[1:])], [True] * (len(spans) - 1))
