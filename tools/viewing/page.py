"""The page of a report."""
from __future__ import annotations

import json
import os
from collections.abc import Iterator
from html import escape
from typing import Any, List, Tuple

from . import diagram, topology
from .chart import Candidate, Chart, legend
from .report import OTHERS
from .report_text import Value
from .runs import Run
from .svg import element, many, picture, table

# Points with their numbers.
Numbered = List[Tuple[int, Value]]
HERE = os.path.dirname(os.path.abspath(__file__))
PARTS = {"whole": "", "reduce": "reduce part", "gather": "gather part", "joined": "joined points"}
MARKER = '<marker id="head" viewBox="0 0 8 8" refX="7" refY="4" markerWidth="7" markerHeight="7" markerUnits="userSpaceOnUse" orient="auto"><path d="M0 0.5L8 4L0 7.5z"/></marker>'
HEAD = f'<svg width="0" height="0" aria-hidden="true"><defs>{MARKER}</defs></svg>'
MOST_OPEN_GROUPS, MOST_OPEN_ROWS = 24, 10
# A diagram in time that is wider is printed on a page that lies.
MOST_UPRIGHT = 1000


def page(report: Value, title: str | None = None) -> str:
    """The page, which needs no other file. The title is that of the topology."""
    name = named(report, title)
    points = points_of(report)
    inner = [
        element("h1", escape(name)), element("p", escape(summary(report)), " ", element("span", "S-R-C", class_="unbroken"), " is a candidate of S steps, R rounds in all, and C chunks."),
        element("div", element("section", *frontiers(report)), element("section", *topology_section(report["topology"])), class_="overview"),
        *chooser(points),
        *(point_section(number, Run(report, part, it)) for number, (part, it) in enumerate(points, 1)),
        element("footer", element("p", "Drawn by a script, which is tested and not proved. What is right of this report "
                                  "<code>sccl check</code> says, and of one point <code>sccl replay</code>.")),
    ]
    head = [element("title", escape(f"sccl: {name}")), element("style", read("figures.css"), read("page.css"))]
    return (f'<!DOCTYPE html>\n<html lang="en"><head><meta charset="utf-8">'
            f'<meta name="viewport" content="width=device-width, initial-scale=1">{"".join(head)}</head>\n'
            f'<body>{HEAD}<main>' + "\n".join(inner) + f'</main>{element("script", read("page.js"), read("chooser.js"))}</body></html>\n')


def read(name: str) -> str:
    with open(os.path.join(HERE, name)) as it:
        return it.read()


def points_of(report: Value) -> list[tuple[str, Value]]:
    """The points with their parts, in the order in which they are numbered."""
    found = [(frontier["part"], it) for frontier in report["frontiers"] for it in frontier["points"]]
    return found + [("joined", it) for it in report["joined"]]


def named(report: Value, title: str | None) -> str:
    return f"{report['words']['collective']} on {title or many(len(report['topology']['nodes']), 'node')}"


def summary(report: Value) -> str:
    words, frontiers = report["words"], report["frontiers"]
    count = lambda *kinds: sum(len(it[kind]) for it in frontiers for kind in kinds)
    root = f", root {words['root']}" if "root" in words else ""
    keys = {"cuts": "cuts before the search", "ordered": "chunks that are alike in order"}
    more = "".join(f", {said}" for key, said in keys.items() if key in words)
    joined = f", {many(len(report['joined']), 'joined point')}" if report["joined"] else ""
    return (f"Searched: at most {many(words['steps'], 'step')}, {many(words['k'], 'round')} more than steps, {many(words['chunks'], 'chunk')}{root}{more}; "
            f"{words['conflicts']} conflicts for each candidate. Found: {many(count('points'), 'point')}{joined}, {count('cut', 'carried', 'refuted')} refuted "
            f"and {count('unknown')} unknown candidates.")


# ---- the frontier


def numbered(report: Value) -> Iterator[tuple[str, Numbered, Value, int]]:
    """For each part its points with their numbers, the candidates, and how many steps the chart has."""
    numbers: dict[str, Numbered] = {}
    steps = report["words"]["steps"]
    for number, (part, it) in enumerate(points_of(report), 1):
        numbers.setdefault(part, []).append((number, it))
    for frontier in report["frontiers"]:
        yield frontier["part"], numbers.get(frontier["part"], []), frontier, steps
    if report["joined"]:
        yield "joined", numbers["joined"], {**{it: [] for it in OTHERS}, "beside": report.get("beside", [])}, 2 * steps


def frontiers(report: Value) -> Iterator[str]:
    yield element("h2", "Frontier")
    for it in numbered(report):
        yield from frontier_section(*it)


def chart_of(points: Numbered, frontier: Value, steps: int) -> tuple[Chart, set[str]]:
    """The chart of a frontier, and the kinds of candidates in it."""
    candidates: list[tuple[str, Candidate]] = [(it["mark"], (it["s"], it["r"], it["c"])) for _, it in points]
    candidates += [(kind, (s, r, c)) for kind in OTHERS for s, r, c in (it[:3] for it in frontier[kind])]
    beside = frontier.get("beside", [])
    candidates += [("published", it) for it in beside]
    steps = max([steps, *(it[0] for it in beside)])
    refuted = sum(len(frontier[it]) for it in ("cut", "carried", "refuted"))
    said = f"Chart of {many(len(points), 'point')}, {refuted} refuted and {len(frontier['unknown'])} unknown candidates."
    return Chart(candidates, steps, frontier.get("floor"), said), {kind for kind, _ in candidates}


def frontier_section(part: str, points: Numbered, frontier: Value, steps: int) -> Iterator[str]:
    if PARTS.get(part):
        yield element("h3", PARTS[part].capitalize())
    chart, kinds = chart_of(points, frontier, steps)
    yield element("figure", chart.drawn(), legend(kinds))
    rows = [candidate_row(it["s"], it["r"], it["c"], f'<a href="#point-{number}">point {number}</a>, {it["mark"]}') for number, it in points]
    rows += [candidate_row(it[0], it[1], it[2], escape(what_is(kind, it))) for kind in OTHERS for it in frontier[kind]]
    head = "Candidate", "Steps", "Rounds", "Chunks", "Rounds for each chunk", "What it is"
    yield element("details", element("summary", all_in_words(len(rows), "candidate")), table(head, rows, class_="candidates"),
                  open="" if len(rows) <= MOST_OPEN_ROWS else None)


def what_is(kind: str, candidate: list[Any]) -> str:
    if kind == "cut":
        return f"cut: too little can come into {' '.join(candidate[3])}"
    if kind == "unknown":
        return f"unknown: given up after {candidate[3]} conflicts"
    return {"carried": "carried: refuted before the fault", "refuted": "refuted: it has no schedule"}[kind]


def all_in_words(count: int, one: str) -> str:
    return f"The {one} in words" if count == 1 else f"All {many(count, one)} in words"


def candidate_row(steps: int, rounds: int, chunks: int, said: str) -> tuple[str, ...]:
    return f"{steps}-{rounds}-{chunks}", str(steps), str(rounds), str(chunks), f"{rounds / chunks:.3g}", said


# ---- the topology


def topology_section(value: Value) -> Iterator[str]:
    yield element("h2", "Topology")
    yield element("figure", topology.drawn(value), element("figcaption", topology.explained(value)))
    yield element("details", element("summary", all_in_words(len(value["groups"]), "group")), topology.groups_table(value))


# ---- which point for which message


def chooser(points: list[tuple[str, Value]]) -> Iterator[str]:
    """Of an allreduce the joined points are the ones to choose from. What is drawn a script draws."""
    joined = any(part == "joined" for part, _ in points)
    given = [{"name": f"{it['s']}-{it['r']}-{it['c']}", "number": number, "s": it["s"], "r": it["r"], "c": it["c"]}
             for number, (part, it) in enumerate(points, 1) if part == "joined" or not joined]
    if not given:
        return
    sizes = [element("option", said, value=1024 ** power, selected="" if power == 2 else None) for power, said in enumerate(("B", "KiB", "MiB", "GiB"))]
    number = lambda name, value: element("input", type="number", name=name, value=value, min=0, step="any")
    asked = [element("label", "alpha, in microseconds ", number("alpha", 5)), element("label", "bandwidth of a width of 1, in GB/s ", number("bandwidth", 25)),
             element("label", "message size ", number("size", 1)), element("label", "unit ", element("select", *sizes, name="unit"))]
    drawn = picture(600, 340, "Time over message size for each point, both axes logarithmic.", class_="times")
    yield element("h2", "Which point for which message")
    yield element(
        "div", element("p", "A model, not a measurement: time = S alpha + (R / C) L beta. Alpha is what a step costs, beta the time of a byte over a "
                       "link of width 1, and L the bytes that C chunks hold together: of a broadcast or a reduce the whole message, else the share of one node.",
                       class_="meaning"),
        element("p", *asked, class_="asked"), element("p", class_="fastest-is", aria_live="polite"), element("figure", drawn),
        table(("Point", "Candidate", "Fastest from", "To"), (), class_="ranges"), class_="chooser", data_points=json.dumps(given))


# ---- a point


def point_section(number: int, run: Run) -> str:
    point = run.point
    part = f" ({PARTS[run.part]})" if PARTS.get(run.part) else ""
    name = f"Point {number}{part}: {many(point['s'], 'step')}, {many(point['r'], 'round')}, {many(point['c'], 'chunk')}, {point['mark']}"
    adding = f" Of {many(point['s'], 'step')} the first {point['adding']} add up, the others copy." if "adding" in point else ""
    loads = table(("Group", *(f"Step {it}" for it in run.steps)), diagram.loads(run), class_="loads")
    in_time = element(
        "div", element("h2", escape(name)),
        element("p", f"{many(len(point['sends']), 'send')} of {many(len(run.chunks), 'chunk')}. Nodes are rows and steps are columns; an arrow "
                     f"goes from who sends to who receives, with the numbers of the chunks beside it.{adding}",
                element("span", " A click on an arrow follows its chunk, one on a name that node, and one in a step that step; the rest is grey, "
                        "until Escape.", class_="keys")),
        slider(number, run), element("figure", diagram.names(run), diagram.drawn(run, f"Point {number} in time."), tabindex="0"),
        class_="in-time", data_wide="" if diagram.width(run) > MOST_UPRIGHT else None)
    return element(
        "section", in_time, states(run),
        element("details", element("summary", "The load of each group in each step, of what its width allows"), loads,
                open="" if len(run.groups) <= MOST_OPEN_GROUPS else None),
        id=f"point-{number}", class_="point")


def slider(number: int, run: Run) -> str:
    steps = run.point["s"]
    chosen = element("input", type="range", min=0, max=steps, value=0, step=1, aria_label=f"Step of point {number}")
    names = [*(f"node {it}" for it in run.nodes), *(f"chunk {it}" for it in run.chunks), *(f"step {it}" for it in run.steps)]
    options = element("option", "everything", value=""), *(element("option", it, value=it) for it in names)
    follow = element("label", "Follow ", element("select", *options, aria_label=f"What to follow in point {number}"))
    return element("p", element("label", f"After step <output>0</output> of {steps} ", chosen), follow, class_="slider")


def states(run: Run) -> str:
    """What there is after each step; of these the slider shows one."""
    meaning = "A square is a chunk that a node has, with a hole where it came in this step; a frame is one that it has to have in the end."
    if not run.copies:
        meaning += (" A triangle is a sum that lacks contributions, or has one twice. In words: the chunk, and a digit for each node, in their "
                    "order, which says how often its contribution is in; 2 stands for two or more.")
    return element("p", meaning, class_="meaning") + "".join(state(run, it) for it in range(run.point["s"] + 1))


def state(run: Run, step: int) -> str:
    """What there is after a step, and the sends of it."""
    rows = ((escape(it), escape(" ".join(run.told(step, it)))) for it in run.nodes)
    sends = [element("li", escape(f"{sender} sends {chunk} to {receiver}")) for chunk, sender, receiver, _ in run.sends[step]]
    title = f"After step {step}, which has {many(run.point['rounds'][step - 1], 'round')}" if step else "Before the first step"
    return element("div", element("h3", title), diagram.holdings(run, step), table(("Node", "Has"), rows, class_="has"),
                   element("details", element("summary", f"{many(len(sends), 'send')} in this step"), element("ul", *sends)) if sends else "",
                   class_="state", data_step=step)
