"""The text of a report, and of a search's words and topology, from the value that `sccl json what=report` writes."""
from __future__ import annotations

from typing import Any, Dict, Iterator, List

NUMBERS = "k", "steps", "chunks", "conflicts"
# What stands at the end of the words where it was given.
MORE = "root", "cuts", "ordered"


def words_of(words: Dict[str, Any]) -> List[str]:
    """The keys of a search with their values, in the order of a report."""
    found = [f"collective={words['collective']}", *(f"{it}={words[it]}" for it in NUMBERS)]
    return found + [f"{it}={words[it]}" for it in MORE if it in words]


def topology_lines(topology: Dict[str, Any]) -> Iterator[str]:
    yield f"topology {topology['version']}"
    yield " ".join(["nodes", *topology["nodes"]])
    for it in topology["groups"]:
        yield " ".join([f"group {it['width']}", *(f"{a}>{b}" for a, b in it["links"])])
    if topology["version"] == 2:
        given = topology["custom"]
        yield f"custom {len(given['before'])}"
        for chunk, (before, after) in enumerate(zip(given["before"], given["after"])):
            yield " ".join([f"before {chunk}", *before])
            yield " ".join([f"after {chunk}", *after])


def point_lines(point: Dict[str, Any]) -> Iterator[str]:
    adding = f" {point['adding']}" if "adding" in point else ""
    yield f"point {point['s']} {point['r']} {point['c']} {point['mark']}{adding}"
    yield " ".join(["rounds", *map(str, point["rounds"])])
    for chunk, sender, receiver, step in point["sends"]:
        yield f"send {chunk} {sender} {receiver} {step}"


def report_lines(report: Dict[str, Any]) -> Iterator[str]:
    yield f"sccl {report['topology']['version']}"
    yield " ".join(["synth", *words_of(report["words"])])
    yield from topology_lines(report["topology"])
    for part in report["frontiers"]:
        yield f"frontier {part['part']}"
        for point in part["points"]:
            yield from point_lines(point)
        for kind in ("refuted", "unknown"):
            yield from (" ".join([kind, *map(str, it)]) for it in part[kind])
    if report["words"]["collective"] == "allreduce":
        yield "joined"
        for point in report["joined"]:
            yield from point_lines(point)
    yield "end"


def report_text(report: Dict[str, Any]) -> bytes:
    return "".join(f"{it}\n" for it in report_lines(report)).encode()


def topology_text(report: Dict[str, Any]) -> bytes:
    return "".join(f"{it}\n" for it in topology_lines(report["topology"])).encode()
