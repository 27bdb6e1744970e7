"""Where the nodes of a topology are drawn: those that are closely linked stand together."""
from __future__ import annotations

from collections.abc import Sequence
from itertools import permutations
from math import ceil, cos, hypot, pi, sin, sqrt
from typing import Dict, List, Set, Tuple

Place = Tuple[float, float]
Near = Dict[Tuple[int, int], int]
# The distance of two neighbours in a grid and on a circle, and of two clusters.
APART, BETWEEN, MARGIN = 120, 170, 70
# Pairs of nodes are in one cluster if links within clusters are at least so many times as dense as between them.
DENSER = 2.5


def places_of(topology: dict, own: Set[Tuple[str, str]], stretch: float) -> Tuple[Dict[str, Place], float, float]:
    """The place of each node, the width and the height. `own` are the links that say which nodes are near each other."""
    nodes = topology["nodes"]
    near = nearness(topology, own)
    found = in_grid(len(nodes), near) or on_line(len(nodes), near) or in_clusters(len(nodes), near) or on_circle(range(len(nodes)))
    left, top = min(x for x, _ in found.values()), min(y for _, y in found.values())
    moved = {nodes[it]: ((x - left) * stretch + MARGIN * stretch, y - top + MARGIN) for it, (x, y) in sorted(found.items())}
    return moved, max(x for x, _ in moved.values()) + MARGIN * stretch, max(y for _, y in moved.values()) + MARGIN


def nearness(topology: dict, own: Set[Tuple[str, str]]) -> Near:
    """For each two nodes with a link, the least first, the widths of what links them."""
    number = {it: place for place, it in enumerate(topology["nodes"])}
    found: Near = {}
    for group in topology["groups"]:
        for a, b in group["links"]:
            if (a, b) in own and a != b:
                pair = min(number[a], number[b]), max(number[a], number[b])
                found[pair] = found.get(pair, 0) + group["width"]
    return found


def on_circle(nodes: Sequence[int]) -> Dict[int, Place]:
    radius = max(APART * 0.75, APART * len(nodes) / (2 * pi)) if len(nodes) > 1 else 0
    turn = lambda place: 2 * pi * place / len(nodes) - pi / 2
    return {it: (radius * cos(turn(place)), radius * sin(turn(place))) for place, it in enumerate(nodes)}


def in_grid(count: int, near: Near) -> Dict[int, Place]:
    """A grid, or a torus, whose nodes are numbered row by row; nothing if it is none."""
    for rows in range(2, count // 2 + 1):
        columns = count // rows
        if rows * columns == count and columns >= rows and rows * columns > 4 and set(near) in grids(rows, columns):
            return {it: (it % columns * APART, it // columns * APART) for it in range(count)}
    return {}


def grids(rows: int, columns: int) -> List[Set[Tuple[int, int]]]:
    """The pairs of a grid, and of one that is closed across, up and down, or both."""
    at = lambda row, column: row % rows * columns + column % columns
    pair = lambda one, other: (min(one, other), max(one, other))
    found = []
    for closed_rows in (0, 1):
        for closed_columns in (0, 1):
            across = {pair(at(row, it), at(row, it + 1)) for row in range(rows) for it in range(columns - 1 + closed_columns)}
            down = {pair(at(it, column), at(it + 1, column)) for column in range(columns) for it in range(rows - 1 + closed_rows)}
            found.append(across | down)
    return found


def on_line(count: int, near: Near) -> Dict[int, Place]:
    """Nodes of which each is linked with the next alone, in a row."""
    is_line = count > 1 and set(near) == {(it, it + 1) for it in range(count - 1)}
    return {it: (it * APART, 0) for it in range(count)} if is_line else {}


def in_clusters(count: int, near: Near) -> Dict[int, Place]:
    """Clusters side by side, each turned so that its links to others are short; nothing if there are none."""
    clusters = best_clusters(count, near)
    if len(clusters) < 2:
        return {}
    columns = len(clusters) if len(clusters) <= 3 else ceil(sqrt(len(clusters)))
    found: Dict[int, Place] = {}
    size = max(extent(on_circle(it)) for it in clusters) + BETWEEN
    for place, cluster in enumerate(clusters):
        centre = place % columns * size, place // columns * size
        found.update(turned(cluster, centre, found, near))
    return found


def extent(places: Dict[int, Place]) -> float:
    return max(x for x, _ in places.values()) - min(x for x, _ in places.values())


def shape_of(count: int) -> List[Place]:
    """The places in a cluster: of four a square, turned so that no two are at one height or below each other, else a circle."""
    if count == 4:
        near, far = APART * 0.19, APART * 0.57
        return [(-near, -far), (far, -near), (near, far), (-far, near)]
    return list(on_circle(range(count)).values())


def turned(cluster: List[int], centre: Place, standing: Dict[int, Place], near: Near) -> Dict[int, Place]:
    """The cluster around its centre: the order of its nodes with the shortest links to those that stand already; among equals the first."""
    best, least = {}, None
    for order in orders(cluster):
        places = {it: (centre[0] + x, centre[1] + y) for it, (x, y) in zip(order, shape_of(len(cluster)))}
        length = sum(hypot(places[a][0] - standing[b][0], places[a][1] - standing[b][1]) * width
                     for pair, width in near.items() for a, b in (pair, pair[::-1]) if a in places and b in standing)
        if least is None or length < least - 1e-6:
            best, least = places, length
    return best


def orders(cluster: List[int]) -> List[List[int]]:
    """Of few nodes each order; of many those that turn or mirror the circle."""
    if len(cluster) <= 4:
        return [list(it) for it in permutations(cluster)]
    turns = [cluster[it:] + cluster[:it] for it in range(len(cluster))]
    return turns + [it[::-1] for it in turns]


def best_clusters(count: int, near: Near) -> List[List[int]]:
    """The clusters with the greatest modularity, if links are far denser within them than between them; else all nodes as one."""
    starts = [[it // size for it in range(count)] for size in range(2, count // 2 + 1)]
    found = max((settled(it, near) for it in starts), key=lambda it: modularity(it, near), default=[0] * count)
    clusters: Dict[int, List[int]] = {}
    for node, its in enumerate(found):
        clusters.setdefault(its, []).append(node)
    groups = list(clusters.values())
    within = sum(found[a] == found[b] for a, b in near)
    room = sum(len(it) * (len(it) - 1) / 2 for it in groups)
    other = count * (count - 1) / 2 - room
    is_clear = all(len(it) > 2 for it in groups) and room and within / room > 0.6 and (not other or within / room >= DENSER * (len(near) - within) / other)
    return groups if is_clear else [list(range(count))]


def modularity(of: List[int], near: Near) -> float:
    """How much more links stand within clusters than they would by chance."""
    total, degree = len(near), [0] * len(of)
    if not total:
        return 0
    for pair in near:
        for it in pair:
            degree[it] += 1
    within = sum(of[a] == of[b] for a, b in near)
    return within / total - sum(sum(degree[node] for node, its in enumerate(of) if its == it) ** 2 for it in set(of)) / (2 * total) ** 2


def settled(of: List[int], near: Near) -> List[int]:
    """The clusters when no move of one node to another cluster makes more of them."""
    of, best = list(of), modularity(of, near)
    for _ in range(len(of)):
        moves = [of[:node] + [to] + of[node + 1:] for node in range(len(of)) for to in sorted(set(of)) if to != of[node]]
        found = max(moves, key=lambda it: modularity(it, near), default=of)
        if modularity(found, near) <= best + 1e-9:
            break
        of, best = found, modularity(found, near)
    return of
