"""Arrows that hide no node, and labels that hide nothing."""
from math import cos, hypot, pi, sin
from typing import Iterable, List, Optional, Tuple

Place = Tuple[float, float]
# A place with half a width and half a height.
Box = Tuple[float, float, float, float]
HALF_HEIGHT, LETTER = 17, 7.5
# How far an arrow is bent, for each unit of its length, and at which part of it: the first that hides no node.
BENDS = [(it, 0.5) for it in (0.07, 0.12, 0.18, 0.25, 0.33, 0.42, -0.18, -0.3)]
BENDS += [(it, part) for it in (0.42, 0.52, -0.42, -0.54, 0.64) for part in (0.25, 0.75, 0.5)]
CLEAR, SAMPLES = 7, [it / 24 for it in range(1, 24)]
PLACES = 0.5, 0.42, 0.58, 0.34, 0.66, 0.27, 0.73, 0.2, 0.8


def edge(box: Box, towards: Place, gap: float) -> Place:
    """Where a line from the middle of a box leaves it, and the gap."""
    x, y, wide, high = box
    length = hypot(towards[0] - x, towards[1] - y) or 1
    along_x, along_y = (towards[0] - x) / length, (towards[1] - y) / length
    reach = min(wide / abs(along_x) if along_x else 1e9, high / abs(along_y) if along_y else 1e9) + gap
    return x + along_x * reach, y + along_y * reach


def at(curve: Tuple[Place, Place, Place], part: float) -> Place:
    """A place on a bent line from its start to its end."""
    (x, y), (mid_x, mid_y), (to_x, to_y) = curve
    one, two, three = (1 - part) ** 2, 2 * part * (1 - part), part ** 2
    return one * x + two * mid_x + three * to_x, one * y + two * mid_y + three * to_y


def curve_of(start: Box, end: Box, others: List[Box]) -> Tuple[Place, Place, Place]:
    """The bent line from one box to another that hides none of the others."""
    curves = [bent(start, end, *it) for it in BENDS]
    return next((it for it in curves if is_clear(it, others)), curves[0])


def bent(start: Box, end: Box, bend: float, part: float) -> Tuple[Place, Place, Place]:
    (x, y), (to_x, to_y) = start[:2], end[:2]
    middle = x + (to_x - x) * part - (to_y - y) * bend, y + (to_y - y) * part + (to_x - x) * bend
    begin, finish = edge(start, middle, 1), edge(end, middle, 4)
    return begin, middle, finish


def is_clear(curve: Tuple[Place, Place, Place], others: List[Box]) -> bool:
    return not any(abs(x - it[0]) < it[2] + CLEAR and abs(y - it[1]) < it[3] + CLEAR for x, y in (at(curve, part) for part in SAMPLES) for it in others)


def overlap(one: Box, other: Box) -> bool:
    return abs(one[0] - other[0]) < one[2] + other[2] and abs(one[1] - other[1]) < one[3] + other[3]


def label_place(curve: Tuple[Place, Place, Place], said: str, taken: List[Box]) -> Optional[Box]:
    """The first place along an arrow at which its label hides nothing; None if there is no such place."""
    boxes = ((*at(curve, part), LETTER * len(said) / 2 + 2, 7.0) for part in PLACES)
    return next((it for it in boxes if not any(overlap(it, other) for other in taken)), None)


def free_box(middle: Place, wide: float, high: float, taken: List[Box]) -> Box:
    """The box nearest to a place that hides nothing that is taken."""
    for away in range(0, 800, 16):
        for turn in range(16) if away else (0,):
            angle = pi * turn / 8
            box = middle[0] + away * cos(angle), middle[1] + away * sin(angle), wide, high
            if not any(overlap((*box[:2], wide + 12, high + 12), other) for other in taken):
                return box
    return (*middle, wide, high)


def bounds(boxes: Iterable[Box]) -> Box:
    """The least box around boxes, as its left, its top, its right and its bottom."""
    boxes = list(boxes)
    return (min(it[0] - it[2] for it in boxes), min(it[1] - it[3] for it in boxes), max(it[0] + it[2] for it in boxes),
            max(it[1] + it[3] for it in boxes))
