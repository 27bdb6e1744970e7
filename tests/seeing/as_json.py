"""Reports as JSON."""
from __future__ import annotations

import json

from oracle.report import Point, Report


def json_of(report: Report) -> bytes:
    """A report in the form of `sccl json what=report`."""
    names, kind = report.topology.names, report.kind

    def point(it: Point) -> dict[str, object]:
        sends = [[chunk, names[a], names[b], step] for step, chunk, a, b in it.sends]
        steps, rounds, chunks = it.candidate
        more = {"adding": it.adding} if it.adding else {}
        return {"s": steps, "r": rounds, "c": chunks, "mark": it.mark, "rounds": it.rounds, "sends": sends, **more}

    keys = {key: "yes" for key, is_there in (("cuts", report.has_cuts), ("ordered", report.is_ordered)) if is_there}
    root = {"root": names[report.root]} if kind in ("broadcast", "gather", "scatter", "reduce") else {}
    words: dict[str, object] = {"collective": kind, **report.limits, **keys, **root}
    groups = [{"width": width, "links": [[names[a], names[b]] for a, b in links]} for width, links in report.topology.groups]
    topology: dict[str, object] = {"nodes": names, "version": 1, "groups": groups}
    given = report.topology.pattern
    if given:
        side = lambda pairs: [[name for node, name in enumerate(names) if (chunk, node) in pairs] for chunk in range(given.base)]
        topology = {**topology, "version": 2, "custom": {"before": side(given.before), "after": side(given.after)}}
    frontiers = [{"part": part, "points": [point(it) for it in found.points], "refuted": found.refuted,
                  "unknown": [[*it, report.limits["conflicts"]] for it in found.unknown]} for part, found in report.frontiers.items()]
    return json.dumps({"words": words, "topology": topology, "frontiers": frontiers, "joined": [point(it) for it in report.joined]}).encode()
