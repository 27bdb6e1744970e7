"""Holds single figures to those of the page."""
from __future__ import annotations

import re
import subprocess
import xml.etree.ElementTree as ElementTree
from collections.abc import Callable
from typing import Any

from tried import Count

from .colours import light_colours
from .tree import Node

# Classes of parts of figures that look otherwise than without one.
STYLED = {"node", "hub", "link", "shared", "step", "round", "row", "floor", "floor-sign", "stairs", "mark", "kept", "come", "part", "due", "halo", "small", "name", "named", "grid"}


def check_figures(name: str, page: Node, count: Count, drawn: Callable[[str], subprocess.CompletedProcess[bytes]]) -> None:
    """Each figure alone, as `drawn` gives it, is that of the page, is XML, and needs no style of the page."""
    figures = ["topology", *(f"point-{number}" for number, _ in enumerate(page.all("section", class_="point"), 1))]
    charts = list(page.all("svg", class_="chart"))
    parts = ["frontier"] if len(charts) == 1 else ["frontier-reduce", "frontier-gather", "frontier-joined"]
    pictures = [page.one("svg", class_="topology"), *page.all("svg", class_="time"), *charts, *list(page.all("svg", class_="holdings"))[1:2]]
    for figure, picture in zip([*figures, *parts, "point-1-step-1"], pictures):
        ran = drawn(figure)
        count.equal(f"{name}: {figure}: status", (ran.returncode, ran.stderr), (0, b""))
        root = ElementTree.fromstring(ran.stdout)
        count.equal(f"{name}: {figure}: it is an SVG", root.tag, "{http://www.w3.org/2000/svg}svg")
        text = ran.stdout.decode()
        count.equal(f"{name}: {figure}: no variable, nothing from elsewhere", [it for it in ("var(", "url(h", "@import", "href", "--") if it in text], [])
        count.equal(f"{name}: {figure}: it has the colours of light pages", set(re.findall("#[0-9a-f]{3,6}(?![0-9a-z])", text)) <= {*light_colours(), "#fff"}, True)
        inside = [it for it in root if it.tag.split("}")[1] not in ("style", "defs")]
        count.equal(f"{name}: {figure}: its ground", inside[1].attrib["fill"], "#fff")
        del inside[1]
        count.equal(f"{name}: {figure}: it is that of the page", [tree_of(it) for it in inside], [node_tree(it) for it in picture.inner if not isinstance(it, str)])
        classes = {one for it in root.iter() for one in it.attrib.get("class", "").split()} & STYLED
        count.equal(f"{name}: {figure}: its styles", [it for it in classes if f".{it}" not in text], [])
    ran = drawn("nothing")
    count.equal(f"{name}: no such figure", (ran.returncode, ran.stdout, ran.stderr.count(b"\n")), (1, b"", 1))


def tree_of(it: ElementTree.Element) -> tuple[str, dict[str, str], str, list[Any]]:
    return it.tag.split("}")[1], {key.lower(): value for key, value in it.attrib.items()}, it.text or "", [tree_of(one) for one in it]


def node_tree(it: Node) -> tuple[str, dict[str, str], str, list[Any]]:
    inner = [one for one in it.inner if not isinstance(one, str)]
    return it.name, it.attributes, "".join(one for one in it.inner if isinstance(one, str)), [node_tree(one) for one in inner]
