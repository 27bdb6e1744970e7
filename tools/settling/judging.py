"""What the program's `check` says of a single candidate, and the report in which candidates that were settled stand."""
from __future__ import annotations

import os
import re
import shutil
import tempfile
from typing import Any, Dict, Iterator, List, Optional, Set

from reporting.order import Candidate, in_search_order, is_better, is_no_worse, name_of
from reporting.program import Program, explained
from reporting.text import report_text
from viewing.runs import OF_PART

# These reasons come behind all that is said of the schedules and the files of a report with one candidate.
LACKING = re.compile(rb"refused 8 [23] .*\n")

Value = Dict[str, Any]


def fault_of(program: Program, report: Value, part: str, candidate: Candidate, folder: str, point: Optional[Value] = None) -> str:
    """What `check` has against a point or, where there is none, against the proof in the folder that refutes the candidate."""
    words = {key: it for key, it in report["words"].items() if key != "cuts"}
    words["collective"] = OF_PART.get(part, words["collective"])
    frontier = {"part": "whole", "points": [point] if point else [], "refuted": [] if point else [candidate], "unknown": []}
    text = report_text({"words": words, "topology": report["topology"], "frontiers": [frontier], "joined": []})
    with tempfile.TemporaryDirectory(dir=os.path.dirname(os.path.abspath(folder)), prefix="settling-") as room:
        os.mkdir(os.path.join(room, "proofs"))
        for ending in () if point else ("cnf", "lrat"):
            of, to = f"{name_of(part, candidate)}.{ending}", f"{name_of('whole', candidate)}.{ending}"
            lend(os.path.join(folder, of), os.path.join(room, "proofs", to))
        status, output = program.run(["check"], text, folder=room)
    return "" if not status or LACKING.fullmatch(output) else explained(status, ["check"], output)


def lend(file: str, name: str) -> None:
    """Gives a file a second name, or copies it where that can't be; `check` takes no symbolic links."""
    try:
        os.link(file, name)
    except FileNotFoundError:
        pass
    except OSError:
        shutil.copyfile(file, name)


def settled(report: Value, refuted: Dict[str, Set[Candidate]], points: Dict[str, List[Value]]) -> Value:
    """The report in which, by part, these candidates are refuted and these points were found."""
    frontiers = [part_settled(report, it, refuted.get(it["part"], set()), points.get(it["part"], [])) for it in report["frontiers"]]
    joined = list(joins(*(it["points"] for it in frontiers))) if len(frontiers) == 2 else []
    return {**report, "frontiers": frontiers, "joined": joined}


def part_settled(report: Value, part: Value, refuted: Set[Candidate], points: List[Value]) -> Value:
    """A part of it: points and unknown candidates that a point makes needless are left out."""
    before: Set[Candidate] = {(s, r, c) for s, r, c in part["refuted"]}
    gone = sorted(before | refuted, key=in_search_order)
    found: List[Value] = []
    for it in sorted(part["points"] + points, key=lambda it: in_search_order(candidate_of(it))):
        if not any(is_no_worse(candidate_of(other), candidate_of(it)) for other in found):
            found.append(it)
    is_covered = lambda candidate: any(is_no_worse(candidate_of(it), candidate) for it in found)
    unknown = [it for it in part["unknown"] if tuple(it[:3]) not in gone and not is_covered(tuple(it[:3]))]
    marked = [{**it, "mark": mark_of(report, candidate_of(it), set(gone))} for it in found]
    return {"part": part["part"], "points": marked, "refuted": gone, "unknown": unknown}


def candidate_of(point: Value) -> Candidate:
    return point["s"], point["r"], point["c"]


def mark_of(report: Value, candidate: Candidate, refuted: Set[Candidate]) -> str:
    return "optimal" if all(it in refuted for it in within(report) if is_better(it, candidate)) else "open"


def within(report: Value) -> Iterator[Candidate]:
    """The candidates within the limits."""
    words = report["words"]
    each = len(report["topology"]["nodes"]) if words["collective"] == "alltoall" else 1
    for steps in range(1, words["steps"] + 1):
        for rounds in range(steps, steps + words["k"] + 1):
            yield from ((steps, rounds, count) for count in range(each, words["chunks"] + 1, each))


def joins(first: List[Value], second: List[Value]) -> Iterator[Value]:
    """The joined points of an allreduce: a point that sums, and behind it one that spreads the sums."""
    for one in first:
        for other in second:
            if one["c"] == other["c"]:
                sends = one["sends"] + [[chunk, a, b, step + one["s"]] for chunk, a, b, step in other["sends"]]
                yield {"s": one["s"] + other["s"], "r": one["r"] + other["r"], "c": one["c"], "mark": "joined", "adding": one["s"],
                       "rounds": one["rounds"] + other["rounds"], "sends": sends}
