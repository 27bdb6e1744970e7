"""Topologies, reports and programs as JSON, both ways."""
from __future__ import annotations

import json
import re
from collections.abc import Callable, Iterator
from math import isinf
from typing import NoReturn

from .audit import LIMIT, Answer, refused
from .collective import ROOTED, STANDARD
from .replay import Replay
from .report import Point, Report, whole_report
from .texts import Refused
from .topology import NAME, Topology, whole_topology

NO_JSON, SHAPE, TEXT = 1, 2, 3
DEPTH = 127
KINDS = [*STANDARD, "custom"]
WHOLE = re.compile("0|[1-9][0-9]{0,19}")
IN_STRINGS = re.compile(r'"(?:[^"\\]|\\.)*"', re.S)


class Fault(Exception):
    """Bytes are refused, for a cause that has no place."""

    def __init__(self, code: int) -> None:
        super().__init__(f"code {code}")
        self.code = code


# ---- from JSON to a text


class Other:
    """A number that is no whole one from 0 to 2^64 - 1, or is not written as one."""


def whole(text: str) -> int | Other:
    if isinf(float(text)):
        raise Fault(NO_JSON)
    return int(text) if WHOLE.fullmatch(text) and int(text) < 2**64 else Other()


def other(text: str) -> Other:
    if isinf(float(text)):
        raise Fault(NO_JSON)
    return Other()


def no_constant(_: str) -> NoReturn:
    raise Fault(NO_JSON)


def members(pairs: list[tuple[str, object]]) -> dict[str, object]:
    """An object, of which a key that comes again has its last value; half a pair of surrogates is no text."""
    for key, value in pairs:
        key.encode()
        strings(value)
    return dict(pairs)


def strings(value: object) -> None:
    if isinstance(value, str):
        value.encode()
    if isinstance(value, list):
        for it in value:
            strings(it)


def value_of(data: bytes) -> object:
    """The value that the bytes are: UTF-8, and nothing deeper than 127."""
    try:
        text = data.decode()
        nested = 0
        for byte in IN_STRINGS.sub("", text):
            nested += (byte in "[{") - (byte in "]}")
            if nested > DEPTH:
                raise Fault(NO_JSON)
        found = json.loads(text, parse_int=whole, parse_float=other, parse_constant=no_constant, object_pairs_hook=members)
        strings(found)
        return found
    except (ValueError, RecursionError):
        raise Fault(NO_JSON) from None


def holds(test: object) -> None:
    if not test:
        raise Fault(SHAPE)


def mapped(value: object) -> dict[str, object]:
    if not isinstance(value, dict):
        raise Fault(SHAPE)
    return value


def keyed(value: object, *keys: str) -> list[object]:
    """The values at exactly these keys."""
    found = mapped(value)
    holds(set(found) == set(keys))
    return [found[it] for it in keys]


def listed(value: object) -> list[object]:
    if not isinstance(value, list):
        raise Fault(SHAPE)
    return value


def count(value: object) -> str:
    holds(isinstance(value, int) and not isinstance(value, bool))
    return str(value)


def name(value: object) -> str:
    if not isinstance(value, str) or not NAME.fullmatch(value):
        raise Fault(SHAPE)
    return value


def word(value: object, words: list[str]) -> str:
    if not isinstance(value, str) or value not in words:
        raise Fault(SHAPE)
    return value


def names(value: object) -> list[str]:
    return [name(it) for it in listed(value)]


def of_length(value: object, length: int) -> list[object]:
    found = listed(value)
    holds(len(found) == length)
    return found


def topology_lines(value: object) -> Iterator[list[str]]:
    version = mapped(value).get("version")
    holds(version in (1, 2) and not isinstance(version, bool))
    patterned = version == 2
    groups, nodes, _, *custom = keyed(value, "groups", "nodes", "version", *["custom"] * patterned)
    yield ["topology", str(version)]
    yield ["nodes", *names(nodes)]
    for group in listed(groups):
        links, width = keyed(group, "links", "width")
        yield ["group", count(width), *(">".join(names(of_length(it, 2))) for it in listed(links))]
    for after, before in (map(listed, keyed(it, "after", "before")) for it in custom):
        holds(len(after) == len(before))
        yield ["custom", str(len(before))]
        for chunk, (first, last) in enumerate(zip(before, after)):
            yield ["before", str(chunk), *names(first)]
            yield ["after", str(chunk), *names(last)]


def point_lines(value: object) -> Iterator[list[str]]:
    given = mapped(value)
    holds("mark" in given)
    mark = word(given["mark"], ["optimal", "open", "joined"])
    chunks, _, rounds, each, steps, sends, *adding = keyed(value, "c", "mark", "r", "rounds", "s", "sends", *["adding"] * (mark == "joined"))
    yield ["point", *map(count, [steps, rounds, chunks]), mark, *map(count, adding)]
    yield ["rounds", *map(count, listed(each))]
    for send in listed(sends):
        chunk, sender, receiver, step = of_length(send, 4)
        yield ["send", count(chunk), name(sender), name(receiver), count(step)]


def frontier_lines(value: object) -> Iterator[list[str]]:
    part, points, refuted_ones, unknown = keyed(value, "part", "points", "refuted", "unknown")
    yield ["frontier", word(part, ["whole", "reduce", "gather"])]
    for point in listed(points):
        yield from point_lines(point)
    for it in listed(refuted_ones):
        yield ["refuted", *map(count, of_length(it, 3))]
    for it in listed(unknown):
        yield ["unknown", *map(count, of_length(it, 4))]


def asked_line(value: object) -> list[str]:
    keys, given = ["collective", "k", "steps", "chunks", "conflicts"], mapped(value)
    more = [it for it in ("root", "cuts", "ordered") if it in given]
    kind, *numbers = keyed(value, *keys, *more)[:5]
    found = [word(kind, KINDS), *map(count, numbers), *(name(given[it]) if it == "root" else word(given[it], ["yes"]) for it in more)]
    return ["synth", *(f"{key}={it}" for key, it in zip([*keys, *more], found))]


def report_lines(value: object) -> Iterator[list[str]]:
    frontiers, joined, topology, words = keyed(value, "frontiers", "joined", "topology", "words")
    asked, named = asked_line(words), list(topology_lines(topology))
    yield ["sccl", named[0][1]]
    yield asked
    yield from named
    for frontier in listed(frontiers):
        yield from frontier_lines(frontier)
    is_joined = mapped(words)["collective"] == "allreduce"
    holds(is_joined or not listed(joined))
    if is_joined:
        yield ["joined"]
        for point in listed(joined):
            yield from point_lines(point)
    yield ["end"]


# What makes lines of a value, what reads their text, and the status of a text that is none.
FORMS: dict[str, tuple[Callable[[object], Iterator[list[str]]], Callable[[bytes], Topology | Report], int]] = {
    "topology": (topology_lines, whole_topology, 3), "report": (report_lines, whole_report, 7),
}


def unjson(what: str, data: bytes) -> Answer:
    """The status and the output of `unjson`."""
    lines, whole_text, _ = FORMS[what]
    if len(data) > LIMIT:
        return refused(11, 0, LIMIT)
    try:
        text = "".join(" ".join(it) + "\n" for it in lines(value_of(data))).encode()
        whole_text(text)
        return 0, text
    except Fault as why:
        return refused(12, why.code, 0)
    except Refused as why:
        return refused(12, TEXT, why.line)


# ---- from a text to JSON


def topology_value(it: Topology) -> dict[str, object]:
    found: dict[str, object] = {
        "groups": [{"links": [[it.names[a], it.names[b]] for a, b in links], "width": width} for width, links in it.groups],
        "nodes": it.names,
        "version": 2 if it.pattern else 1,
    }
    if it.pattern:
        sides = {"after": it.pattern.after, "before": it.pattern.before}
        found["custom"] = {
            side: [[name for node, name in enumerate(it.names) if (chunk, node) in pairs] for chunk in range(it.pattern.base)]
            for side, pairs in sides.items()
        }
    return found


def point_value(names_of: list[str], it: Point) -> dict[str, object]:
    steps, rounds, chunks = it.candidate
    sends = [[chunk, names_of[sender], names_of[receiver], step] for step, chunk, sender, receiver in it.sends]
    found = {"c": chunks, "mark": it.mark, "r": rounds, "rounds": it.rounds, "s": steps, "sends": sends}
    return {**found, "adding": it.adding} if it.mark == "joined" else found


def report_value(it: Report) -> dict[str, object]:
    names_of, limits = it.topology.names, it.limits
    words: dict[str, int | str] = {"collective": it.kind, **limits}
    if it.kind in ROOTED:
        words["root"] = names_of[it.root]
    words.update({key: "yes" for key, is_there in (("cuts", it.has_cuts), ("ordered", it.is_ordered)) if is_there})
    frontiers = [
        {
            "part": part,
            "points": [point_value(names_of, point) for point in frontier.points],
            "refuted": frontier.refuted,
            "unknown": [[*candidate, limits["conflicts"]] for candidate in frontier.unknown],
        }
        for part, frontier in it.frontiers.items()
    ]
    joined = [point_value(names_of, point) for point in it.joined]
    return {"frontiers": frontiers, "joined": joined, "topology": topology_value(it.topology), "words": words}


def programs_value(report: Report, number: int) -> dict[str, object]:
    """Made of the lines of the programs' text."""
    nodes: list[dict[str, object]] = []
    ops: list[list[int | str]] = []
    for line in Replay(report, number).programs_text().decode().splitlines()[1:-1]:
        first, *rest = line.split(" ")
        if first == "node":
            ops = []
            nodes.append({"node": rest[0], "ops": ops})
        else:
            ops.append([int(first), rest[0], int(rest[1]), *rest[2:]])
    return {"point": number, "programs": nodes}


def printed(value: object) -> bytes:
    return (json.dumps(value, sort_keys=True, separators=(",", ":")) + "\n").encode()


def to_json(what: str, data: bytes, point: int | None = None) -> Answer:
    """The status and the output of `json`, of which the point is the number of a report's point, and word 2."""
    _, whole_text, status = FORMS["topology" if what == "topology" else "report"]
    if len(data) > LIMIT:
        return refused(11, 0, LIMIT)
    try:
        found = whole_text(data)
    except Refused as why:
        return refused(status, why.code, why.line)
    if isinstance(found, Topology):
        return 0, printed(topology_value(found))
    if what == "report":
        return 0, printed(report_value(found))
    assert point is not None
    if point > len(found.points()):
        return refused(2, 9, 2)
    return 0, printed(programs_value(found, point))
