"""A report as a value, in the form that `sccl json what=report` writes."""
from __future__ import annotations

import json
import re
from collections.abc import Iterator

from .cuts import Floor, floors, is_cut
from .report_text import SEARCHES, Value, value_of_text

KEYS = "frontiers", "joined", "topology", "words"
# The lists of candidates without a point.
OTHERS = "cut", "carried", "refuted", "unknown"
# The greatest number of a report, which is one of conflicts; and the most steps and rounds of a schedule.
GREATEST, STEPS, ROUNDS = 100_000, 16, 144
FLOOR = re.compile(r"floor ([0-9]{1,9}) ([0-9]{1,9})((?: [a-z0-9_]{1,16})*)")


class NoReport(Exception):
    """The bytes are no report, for the reason that is given."""


def drawn_of(texts: list[bytes]) -> Value:
    """The value of what is given, in whatever order: a report or its JSON, with a text of `bound` or without; or a text of `bound`,
    `ordered` or `degrade`, the first two with their topology. Each frontier has its floor if one is known, and the candidates
    below it stand under `cut` with the nodes that show it."""
    kinds: dict[str, bytes] = {}
    for it in texts:
        if kinds.setdefault(kind_of(it), it) is not it:
            raise NoReport(f"{kind_of(it)} is given twice")
    report, search, topology = (kinds.get(it) for it in ("a report", "a search", "a topology"))
    if report is None:
        if search is None:
            raise NoReport("it is no report: none is given")
        return with_floors(report_of(search, topology))
    if topology is not None:
        raise NoReport("a report has a topology of its own: give no other")
    return with_floors(report_of(report), floor_of(search) if search is not None else None)


def kind_of(text: bytes) -> str:
    first = text.split(b"\n", 1)[0].decode("latin-1")
    return "a search" if first in SEARCHES else "a topology" if first.startswith("topology ") else "a report"


def with_floors(report: Value, floor: Floor | None = None) -> Value:
    """The report with what lies below the floors, of which one may be given for the part that is the whole."""
    told = floor or report.get("floor")
    known = {"whole": told} if told else floors(report) if report["words"].get("cuts") == "yes" else {}
    for frontier in report["frontiers"]:
        at = frontier["floor"] = known.get(frontier["part"])
        below = [it for it in frontier["refuted"] if at and is_cut(at, it[1], it[2])]
        frontier["cut"] = frontier.get("cut", []) + [[*it, at[2]] for it in below if at]
        frontier["refuted"] = [it for it in frontier["refuted"] if it not in below]
        frontier.setdefault("carried", [])
    return report


def with_points_beside(report: Value, words: str) -> Value:
    """The report with schedules of others, which are given as `chunks,steps,rounds`."""
    triples: list[tuple[int, int, int]] = []
    for it in words.split():
        found = re.fullmatch(r"([1-9][0-9]{0,3}),([1-9][0-9]{0,2}),([1-9][0-9]{0,2})", it)
        if not found:
            raise NoReport(f"points beside it are no triples of chunks, steps and rounds: {words}")
        triples.append((int(found[1]), int(found[2]), int(found[3])))
    each = len(report["topology"]["nodes"]) if report["words"]["collective"] == "allreduce" else 1
    if any(steps > STEPS or rounds > ROUNDS or chunks % each for chunks, steps, rounds in triples):
        raise NoReport(f"a point beside it has more than {STEPS} steps or {ROUNDS} rounds, or chunks that {each} nodes can't share")
    report["beside"] = [(steps, rounds, chunks // each) for chunks, steps, rounds in triples]
    for frontier in report["frontiers"]:
        frontier["beside"] = report["beside"] if frontier["part"] == "whole" else []
    return report


def report_of(text: bytes, topology: bytes | None = None) -> Value:
    """The value that the bytes stand for: JSON, or a text."""
    try:
        if not text.lstrip().startswith(b"{"):
            return within(value_of_text(text.decode("ascii"), None if topology is None else topology.decode("ascii")))
        found = json.loads(text)
        return within({it: found[it] for it in KEYS})
    except (ValueError, KeyError, RecursionError) as why:
        raise NoReport(f"it is no report: {why}") from None


def within(report: Value) -> Value:
    """The report, where none of its numbers would make a page without end."""
    if any(it > GREATEST for it in numbers_in(report)):
        raise NoReport(f"a number is greater than {GREATEST}")
    points = [it for part in report["frontiers"] for it in part["points"]] + report["joined"]
    others = [it for part in report["frontiers"] for kind in OTHERS for it in part.get(kind, [])]
    sizes = [(report["words"]["steps"], 0), *((it["s"], it["r"]) for it in points), *((it[0], it[1]) for it in others)]
    if any(steps > STEPS or rounds > ROUNDS for steps, rounds in sizes):
        raise NoReport(f"a candidate has more than {STEPS} steps or {ROUNDS} rounds")
    return report


def numbers_in(value: object) -> Iterator[float]:
    if isinstance(value, (dict, list)):
        for it in value.values() if isinstance(value, dict) else value:
            yield from numbers_in(it)
    elif isinstance(value, (int, float)):
        yield value


def floor_of(text: bytes) -> Floor:
    """What `sccl bound` says in its line `floor N D NODES..`: the two numbers and the names. Where D is 0 there is no schedule."""
    for line in text.decode("latin-1").split("\n"):
        found = FLOOR.fullmatch(line)
        if found:
            return int(found[1]), int(found[2]), found[3].split()
    raise NoReport("it is no text of sccl bound: no line has a floor")
