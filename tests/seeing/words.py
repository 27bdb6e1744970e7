"""Holds the sentences of a page, its legends, and what there is to choose from to the report."""
from __future__ import annotations

import json
import re
from collections import Counter

from oracle.report import Point, Report
from oracle.topology import Topology
from tried import Count

from .charts import SHAPES
from .tree import Node

MEANING = {
    "optimal": "optimal point", "open": "open point", "joined": "joined point", "cut": "cut: below the floor",
    "carried": "carried: refuted before the fault", "refuted": "refuted: no schedule", "unknown": "unknown: given up",
}
PART = {"whole": "", "reduce": " (reduce part)", "gather": " (gather part)", "joined": " (joined points)"}


def numbers(text: str) -> list[int]:
    return [int(it) for it in re.findall(r"\d+", text)]


def many(count: int, one: str) -> str:
    return f"{count} {one}{'' if count == 1 else 's'}"


def check_words(name: str, page: Node, report: Report, count: Count) -> None:
    limits, frontiers = report.limits, report.frontiers.values()
    points, refuted, unknown = (sum(len(getattr(it, kind)) for it in frontiers) for kind in ("points", "refuted", "unknown"))
    searched = next(it.text() for it in page.all("p") if it.text().startswith("Searched"))
    due = [limits["steps"], limits["k"], limits["chunks"], limits["conflicts"], points, *[len(report.joined)] * bool(report.joined), refuted, unknown]
    root = re.search(", root ([a-z0-9_]+)", searched)
    count.equal(f"{name}: what was searched and found", numbers(re.sub(", root [a-z0-9_]+", "", searched)), due)
    count.equal(f"{name}: the root", root and root[1], report.topology.names[report.root] if report.kind in ("broadcast", "gather", "scatter", "reduce") else None)
    said = [it for it in ("cuts before the search", "chunks that are alike in order") if it in searched]
    count.equal(f"{name}: the keys in words", len(said), report.has_cuts + report.is_ordered)
    check_topology_words(name, page, report.topology, count)
    lists = [[*(it.mark for it in found.points), *["refuted"] * len(found.refuted), *["unknown"] * len(found.unknown)] for found in frontiers]
    lists += [["joined"] * len(report.joined)] if report.joined else []
    for chart, legend, kinds in zip(page.all("svg", class_="chart"), page.all("p", class_="legend"), lists):
        check_legend(name, chart, legend, kinds, count)
    sections = list(page.all("section", class_="point"))
    for number, ((part, point), section) in enumerate(zip(report.points(), sections), 1):
        check_point_words(f"{name}: point {number}", number, part, point, section, report.topology.names, count)
    links = [(it.attributes["href"], it.text()) for it in page.all("a")]
    count.equal(f"{name}: links to points", links, [(f"#{it.attributes['id']}", f"point {number}") for number, it in enumerate(sections, 1)])
    check_choice(name, page, report, count)


def check_topology_words(name: str, page: Node, topology: Topology, count: Count) -> None:
    figure = next(it for it in page.all("figure") if list(it.all("svg", class_="topology")))
    widths = Counter(width for width, _ in topology.groups)
    shared = sum(len(links) > 1 for _, links in topology.groups)
    said, sentence = figure.one("figcaption").text(), ", ".join(f"{many(widths[it], 'group')} of width {it}" for it in sorted(widths))
    count.equal(f"{name}: widths in words", said.split(".")[0], sentence or "No group")
    count.equal(f"{name}: shared groups in words", re.findall(r"\d+ groups? of several links", said), [f"{many(shared, 'group')} of several links"] * bool(shared))
    due = [len(topology.names), len(topology.usable()), len(topology.groups)]
    count.equal(f"{name}: the name of the drawing", numbers(figure.one("svg").attributes["aria-label"]), due)


def check_legend(name: str, chart: Node, legend: Node, kinds: list[str], count: Count) -> None:
    """The legend has the kinds that stand in the chart, each with its sign; the chart's name has their numbers."""
    of_points = sum(it in ("optimal", "open", "joined") for it in kinds)
    count.equal(f"{name}: the name of a chart", numbers(chart.attributes["aria-label"]), [of_points, kinds.count("refuted"), kinds.count("unknown")])
    seen = {it.attributes["class"].split(" ")[1] for it in chart.all("g")}
    signs = {it.one("svg").one("g").attributes["class"].split(" ")[1]: it for it in legend.all("span")}
    count.equal(f"{name}: the kinds of a legend", sorted(signs), sorted(seen))
    for kind, it in signs.items():
        shape = next(one.name for one in it.one("svg").one("g").inner if not isinstance(one, str))
        count.equal(f"{name}: the legend of {kind}", (it.text().strip(), shape), (MEANING[kind], SHAPES[kind]))
    along = [it for it in chart.all("text") if it.text() in ("steps", "rounds for each chunk")]
    count.equal(f"{name}: the words at the axes", {it.text(): "rotate" in it.attributes.get("transform", "") for it in along}, {"steps": False, "rounds for each chunk": True})


def check_point_words(name: str, number: int, part: str, point: Point, section: Node, names: list[str], count: Count) -> None:
    steps, rounds, chunks = point.candidate
    head = f"Point {number}{PART[part]}: {many(steps, 'step')}, {many(rounds, 'round')}, {many(chunks, 'chunk')}, {point.mark}"
    count.equal(f"{name}: its heading", section.one("h2").text(), head)
    said = next(section.all("p")).text()
    count.equal(f"{name}: its sends", numbers(said)[0], len(point.sends))
    options = [it.attributes["value"] for it in section.one("select").all("option")]
    of_all = numbers(said)[1]
    count.equal(f"{name}: what can be followed", options, ["", *(f"node {it}" for it in names), *(f"chunk {it}" for it in range(of_all)), *(f"step {it}" for it in range(1, steps + 1))])
    count.equal(f"{name}: its chunks", of_all % chunks or max((it[1] for it in point.sends), default=0) >= of_all, 0)
    count.equal(f"{name}: the steps that add", re.findall(r"Of (\d+) steps? the first (\d+) add", said), [(str(steps), str(point.adding))] if point.adding else [])
    due = ["Before the first step", *(f"After step {it}, which has {many(round_, 'round')}" for it, round_ in enumerate(point.rounds, 1))]
    count.equal(f"{name}: the headings of its states", [it.one("h3").text() for it in section.all("div", class_="state")], due)
    told = [many(found, "send") for found in (sum(it[0] == step for it in point.sends) for step in range(1, steps + 1)) if found]
    count.equal(f"{name}: sends of its steps", [it.one("summary").text() for state in section.all("div", class_="state") for it in state.all("details")],
                [f"{it} in this step" for it in told])


def check_choice(name: str, page: Node, report: Report, count: Count) -> None:
    """The chooser has the joined points, or else all."""
    found = [json.loads(it.attributes["data-points"]) for it in page.all("div", class_="chooser")]
    due = [{"name": "-".join(map(str, it.candidate)), "number": number, **dict(zip("src", it.candidate))}
           for number, (part, it) in enumerate(report.points(), 1) if part == "joined" or not report.joined]
    count.equal(f"{name}: what there is to choose from", found, [due] if due else [])
