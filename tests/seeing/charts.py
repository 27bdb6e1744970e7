"""Holds a chart of a frontier to the report: each mark, the stairs and the floor against the numbers that stand at the axes."""
from __future__ import annotations

import re
from itertools import combinations
from typing import Callable

from oracle.collective import Candidate
from tried import Count

from .tree import Node

# What a place stands for.
Scale = Callable[[float], float]


def numbers(text: str) -> list[float]:
    return [float(it) for it in re.findall(r"-?[\d.]+", text)]


def axes_of(chart: Node) -> tuple[Scale, Scale]:
    """What the places across and up stand for, as the numbers at the axes tell: two functions."""
    steps: list[tuple[float, float]] = []
    ratios: list[tuple[float, float]] = []
    for it in chart.all("text"):
        if re.fullmatch(r"[\d.]+", it.text()):
            x, y = float(it.attributes["x"]), float(it.attributes["y"])
            (ratios if it.attributes["text-anchor"] == "end" else steps).append((x if it.attributes["text-anchor"] != "end" else y - 4, float(it.text())))
    return through(steps), through(ratios)


def through(places: list[tuple[float, float]]) -> Scale:
    """The function on whose line all places lie; a single place says nothing of its scale."""
    (first, value), (last, other) = places[0], places[-1]
    each = (other - value) / (last - first) if last != first else 1.0
    assert all(abs(value + (at - first) * each - it) < 0.02 * max(1, abs(other - value)) for at, it in places), places
    return lambda at: value + (at - first) * each


def centre(mark: Node, what: str) -> tuple[float, float]:
    """The middle of what marks a candidate of a kind."""
    shapes = [it for it in mark.inner if not isinstance(it, str) and it.name != "title"]
    kind, attributes = shapes[0].name, shapes[0].attributes
    if kind == "circle":
        return float(attributes["cx"]), float(attributes["cy"])
    if kind == "rect":
        return float(attributes["x"]) + 5, float(attributes["y"]) + 5
    if kind == "text":
        return float(attributes["x"]), float(attributes["y"]) - 5
    if kind == "path":
        x, y, *_ = numbers(attributes["d"])
        return (x, y + 9) if what == "published" else (x + 5, y + 4)
    lines = [[float(it.attributes[key]) for key in ("x1", "x2", "y1", "y2")] for it in shapes]
    return sum(it[0] + it[1] for it in lines) / 2 / len(lines), sum(it[2] + it[3] for it in lines) / 2 / len(lines)


SHAPES = {"optimal": "circle", "open": "circle", "joined": "rect", "cut": "path", "carried": "line", "refuted": "line", "unknown": "text", "published": "path"}


def check_chart(name: str, chart: Node, points: list[tuple[str, Candidate]], count: Count, floor: tuple[int, int] | None = None) -> None:
    """`points` are the candidates of the points with their marks, in their order; `floor` the two numbers of one that is known."""
    across, up = axes_of(chart)
    count.equal(f"{name}: it is upright", (across(1) > across(0), up(0) > up(1)), (True, True))
    near = lambda found, wanted: abs(found - wanted) < 0.5 * (up(0) - up(1))
    seen: dict[tuple[int, int], list[float]] = {}
    for it in chart.all("g"):
        kind = it.attributes["class"].split(" ")[1]
        x, y = centre(it, kind)
        for candidate in it.title().rsplit(": ", 1)[1].split(", "):
            steps, rounds, chunks = map(int, candidate.split("-"))
            place = seen.setdefault((steps, rounds * 720720 // chunks), [])
            count.equal(f"{name}: the place of {candidate}", (abs(across(x - 15 * len(place)) - steps) < 0.01 or kind == "published", near(up(y), rounds / chunks)), (True, True))
            count.equal(f"{name}: the shape of {candidate}", next(one.name for one in it.inner if not isinstance(one, str) and one.name != "title"), SHAPES[kind])
        if kind == "published":
            count.equal(f"{name}: a published point frames what is at its place", abs(across(x) - steps) < 0.01, True)
        else:
            place.append(x)
    for places in seen.values():
        count.equal(f"{name}: marks at one place stand apart", all(b - a >= 12 for a, b in zip(places, places[1:])), True)
    drawn = [it.attributes["class"] for it in chart.all("line") if it.attributes.get("class") in ("grid", "axis")]
    count.equal(f"{name}: no line of the grid is over an axis", drawn, sorted(drawn, reverse=True))
    path = next(iter(chart.all("path", class_="stairs")), None)
    count.equal(f"{name}: stairs", stairs_of(path, across, up), wanted_stairs(points))
    lines = [it.attributes for it in chart.all("line", class_="floor")]
    if floor and floor[1]:
        count.equal(f"{name}: the height of the floor", [near(up(float(it[key])), floor[0] / floor[1]) for it in lines for key in ("y1", "y2")], [True, True])
    for it in chart.all("text", class_="named"):
        x, y = float(it.attributes["x"]) - 10, float(it.attributes["y"]) + 9
        steps, rounds, chunks = map(int, it.text().split(", ")[0].split("-"))
        count.equal(f"{name}: the name {it.text()}", near(up(y), rounds / chunks), True)
        long, left = 7.5 * len(it.text()), it.attributes["text-anchor"] == "end"
        count.equal(f"{name}: the name {it.text()} is not cut", x >= long if left else x + 10 + long <= float(chart.attributes["width"]), True)
        beside = float(it.attributes["x"]) + (10 if left else -10)
        count.equal(f"{name}: the name {it.text()} stands beside its mark", any(abs(beside - at) < 0.2 for at in seen[steps, rounds * 720720 // chunks]), True)


def stairs_of(path: Node | None, across: Scale, up: Scale) -> list[tuple[float, float]]:
    """The corners of a line along points, from left to right and down."""
    if path is None:
        return []
    found, x, y = [], 0.0, 0.0
    for letter, said in re.findall(r"([MHV])([-\d. ]+)", path.attributes["d"]):
        given = numbers(said)
        x, y = given if letter == "M" else (given[0], y) if letter == "H" else (x, given[0])
        found.append((round(across(x), 1), round(up(y), 1)))
    return found


def wanted_stairs(points: list[tuple[str, Candidate]]) -> list[tuple[float, float]]:
    places = [(it[0], it[1] / it[2]) for mark, it in points if mark in ("optimal", "open")]
    found = [(float(places[0][0]), round(places[0][1], 1))] if places else []
    for (_, before), (steps, ratio) in zip(places, places[1:]):
        found += [(float(steps), round(before, 1)), (float(steps), round(ratio, 1))]
    return found


def check_column(name: str, column: Node, rounds: int, step: int, count: Count) -> None:
    """The head of a step, and the lines between its rounds."""
    said = [it.text() for it in column.all("text") if it.attributes.get("class") != "halo"]
    count.equal(f"{name}: the head of step {step}", said, [f"step {step}", f"{rounds} round{'' if rounds == 1 else 's'}"])
    box = column.one("rect").attributes
    start, wide = float(box["x"]), float(box["width"])
    arrows = len(list(column.all("g", class_="send")))
    count.equal(f"{name}: how wide step {step} is", wide, max(200, min(440, max(110 * rounds, 9 * arrows))))
    lines = [float(it.attributes["x1"]) for it in column.all("line", class_="round")]
    wanted = [start + wide * it / rounds for it in range(1, rounds)]
    count.equal(f"{name}: the rounds of step {step}", len(lines) == len(wanted) and all(abs(a - b) < 0.2 for a, b in zip(lines, wanted)), True)
    for it in column.all("g", class_="send"):
        x, to_x = (float(it.one("line").attributes[key]) for key in ("x1", "x2"))
        count.equal(f"{name}: an arrow goes from left to right within step {step}", start < x < start + wide / 3 and start + wide * 2 / 3 < to_x < start + wide, True)
        count.equal(f"{name}: an arrow has its head", it.one("line").attributes.get("marker-end"), "url(#head)")


def check_labels(name: str, column: Node, count: Count) -> None:
    """The label of each arrow lies on it, and tells its chunks."""
    sends = {it.attributes["data-send"]: [float(it.one("line").attributes[key]) for key in ("x1", "y1", "x2", "y2")] for it in column.all("g", class_="send")}
    labels = {it.attributes["data-send"]: it for it in column.all("text", class_="halo")}
    count.equal(f"{name}: labels", sorted(labels), sorted(sends))
    places = [(float(it.attributes["x"]), float(it.attributes["y"]), 8.3 * len(it.text()) + 4, said) for said, it in labels.items()]
    hidden = [(one[3], other[3]) for one, other in combinations(places, 2) if abs(one[0] - other[0]) < (one[2] + other[2]) / 2 - 0.2 and abs(one[1] - other[1]) < 13.8]
    count.equal(f"{name}: labels hide no other", hidden, [])
    for said, it in labels.items():
        x, y, to_x, to_y = sends[said]
        at = float(it.attributes["x"])
        on_line = y + (to_y - y) * (at - x) / (to_x - x)
        chunks = said.split(" ")[3:]
        due = ",".join(chunks) if len(" ".join(chunks)) <= 14 else f"{len(chunks)} chunks"
        count.equal(f"{name}: the label of {said}", (it.text(), x < at < to_x, abs(on_line + 4 - float(it.attributes["y"])) < 0.3), (due, True, True))


def check_bars(name: str, loads: Node, wanted: list[list[str]], count: Count) -> None:
    """Each bar is as long as its load is of what is allowed, and a load that is too great is marked."""
    for row, words in zip(loads.one("tbody").all("tr"), wanted):
        for cell, said in zip(list(row.all("td")), words):
            load, allowed = (int(it) for it in said.split(",")[0].split(" of "))
            bars = [float(it.attributes["width"]) for it in cell.all("rect", class_="load")]
            due = [round(60 * min(load, allowed) / allowed, 1)] if load else []
            count.equal(f"{name}: a bar of {said}", (bars, len(list(cell.all("path", class_="too-many")))), (due, int(load > allowed)))
