"""Single figures of a report, each a file of its own that any viewer of SVG shows as the page does."""
from __future__ import annotations

import os
import re
from functools import partial
from typing import Callable, Dict

from . import diagram, topology
from .page import HERE, MARKER, Numbered, chart_of, numbered, points_of
from .report_text import Value
from .runs import Run
from .svg import element

VARIABLE = re.compile(r"--([a-z]+): (#[0-9a-f]+);")


def figures(report: dict) -> Dict[str, Callable[[], str]]:
    """The figures by their names, each drawn when it is asked for."""
    found: Dict[str, Callable[[], str]] = {"topology": lambda: topology.drawn(report["topology"])}
    for part, points, frontier, steps in numbered(report):
        found["frontier" if part == "whole" else f"frontier-{part}"] = partial(frontier_drawn, points, frontier, steps)
    for number, (part, point) in enumerate(points_of(report), 1):
        found[f"point-{number}"] = partial(in_time, report, part, point, number)
        for step in range(point["s"] + 1):
            found[f"point-{number}-step-{step}"] = partial(after_step, report, part, point, step)
    return found


def frontier_drawn(points: Numbered, frontier: Value, steps: int) -> str:
    chart, _ = chart_of(points, frontier, steps)
    return chart.drawn()


def in_time(report: Value, part: str, point: Value, number: int) -> str:
    return diagram.drawn(Run(report, part, point), f"Point {number} in time.")


def after_step(report: Value, part: str, point: Value, step: int) -> str:
    return diagram.holdings(Run(report, part, point), step)


def alone(drawn: str) -> str:
    """A figure as a file, with its styles and the heads of its arrows inside, over a white ground."""
    inside = drawn.index("</title>") + len("</title>")
    view = re.search(r'viewBox="(\S+) (\S+) (\S+) (\S+)"', drawn)
    assert view
    ground = element("rect", x=view[1], y=view[2], width=view[3], height=view[4], fill="#fff")
    styles = element("style", style_of())
    made = drawn[:inside] + styles + element("defs", MARKER) + ground + drawn[inside:]
    return f'<?xml version="1.0" encoding="UTF-8"?>\n{made.replace("<svg ", "<svg xmlns=" + chr(34) + "http://www.w3.org/2000/svg" + chr(34) + " ", 1)}\n'


def style_of() -> str:
    """The styles of figures in their light colours, with no variable left, since few viewers know them."""
    with open(os.path.join(HERE, "figures.css")) as it:
        rules = it.read()
    with open(os.path.join(HERE, "page.css")) as it:
        colours = dict(reversed(VARIABLE.findall(it.read().split("@media")[0])))
    return re.sub(r"var\(--([a-z]+)\)", lambda it: colours[it[1]], rules).replace("system-ui, ", "")
