"""The texts of `bound`, `ordered` and `degrade`, and the report that each of them is."""
from __future__ import annotations

import re
from typing import Dict, List, NoReturn, Optional, Tuple

from .order import Candidate, in_search_order

NAME, NUMBER = "[a-z0-9_]{1,16}", "(?:0|[1-9][0-9]{0,5})"
HEADERS = {"bound 1": "bound", "ordered 1": "ordered", "degraded 1": "degrade"}
LIMITS = " ".join(f"{it}={NUMBER}" for it in ("k", "steps", "chunks", "conflicts"))
WORDS = re.compile(f"(synth collective=([a-z]+) {LIMITS}(?: root=({NAME}))?)( cuts=yes)?( ordered=yes)?")
CANDIDATE = f"({NUMBER}) ({NUMBER}) ({NUMBER})"
# The lines behind `frontier whole`, in the order in which they may stand; those of the schedule of a point belong to it.
SEND = re.compile(f"send {NUMBER} ({NAME}) ({NAME}) {NUMBER}")
POINT = re.compile(f"point {CANDIDATE} (?:optimal|open)"), re.compile(f"rounds(?: {NUMBER})+"), SEND
REFUTED = {
    "bound": (re.compile(f"cut {CANDIDATE}((?: {NAME})+)"), re.compile(f"refuted {CANDIDATE}")),
    "ordered": (re.compile(f"refuted {CANDIDATE}"),),
    "degrade": (re.compile(f"carried {CANDIDATE}"), re.compile(f"refuted {CANDIDATE}")),
}
UNKNOWN = re.compile(f"unknown {CANDIDATE} {NUMBER}")
FLOOR = re.compile(f"floor [0-9]+ [0-9]+((?: {NAME})*)")
TOPOLOGY = [re.compile("topology [12]"), re.compile(f"nodes(?: {NAME})+")]
BEHIND_NODES = re.compile(f"group [0-9]+(?: {NAME}>{NAME})+|custom [0-9]+|(?:before|after) [0-9]+(?: {NAME})*")


class Refused(Exception):
    """A text is not what it should be, for the reason that is said, with its line."""


class Lines:
    """Takes a text line by line."""

    def __init__(self, text: bytes, what: str) -> None:
        self.rows, self.at, self.what = text.decode("latin-1").split("\n"), 0, what

    def refuse(self, why: str, line: int) -> NoReturn:
        raise Refused(f"line {line} of {self.what}: {why}")

    def next(self) -> Optional[str]:
        """The line that comes, where it is there and has its line feed."""
        return self.rows[self.at] if self.at < len(self.rows) - 1 else None

    def take(self, *shapes: "re.Pattern[str]", due: str = "") -> "re.Match[str]":
        """The next line, which has one of the shapes."""
        found = self.taken(*shapes)
        if not found:
            self.refuse(f"{due} is due" if self.next() is not None else f"it ends before {due}", self.at + 1)
        return found

    def taken(self, *shapes: "re.Pattern[str]") -> Optional["re.Match[str]"]:
        """The next line, where it has one of the shapes."""
        row = self.next()
        found = None if row is None else next((it for it in (shape.fullmatch(row) for shape in shapes) if it), None)
        self.at += found is not None
        return found

    def all(self, *shapes: "re.Pattern[str]") -> List["re.Match[str]"]:
        found = []
        it = self.taken(*shapes)
        while it:
            found.append(it)
            it = self.taken(*shapes)
        return found

    def end(self) -> None:
        if self.at < len(self.rows) - 1 or self.rows[-1]:
            self.refuse("nothing stands behind the end", self.at + 1)


def topology_of(lines: Lines) -> List[str]:
    """The lines of a topology."""
    found = [lines.take(TOPOLOGY[0], due="`topology 1` or `topology 2`")[0], lines.take(TOPOLOGY[1], due="a line of nodes")[0]]
    return found + [it[0] for it in lines.all(BEHIND_NODES)]


def report_of(text: bytes, topology: Optional[bytes], has_cuts: bool) -> str:
    """The report of a text, with the topology where the text lacks it. With `has_cuts` its words are those of a search with cuts."""
    lines = Lines(text, "the text")
    kind = HEADERS[lines.take(*(re.compile(it) for it in HEADERS), due="`bound 1`, `ordered 1` or `degraded 1`")[0]]
    words = lines.take(WORDS, due="the line of the words")
    given = given_topology(lines, kind, topology)
    nodes = given[1].split(" ")[1:]
    if (words[2] == "custom") != given[0].endswith("2"):
        raise Refused("the topology of a collective of one's own has version 2, and any other has version 1")
    if kind == "bound":
        known(lines, nodes, lines.take(FLOOR, due="the floor")[1].split())
    lines.take(re.compile("frontier whole"), due="`frontier whole`")
    known(lines, nodes, [words[3]] if words[3] else [])
    body = points_of(lines, nodes) + [f"refuted {s} {r} {c}" for s, r, c in refuted_of(lines, kind, nodes)]
    body += [it[0] for it in lines.all(UNKNOWN)]
    lines.take(re.compile("end"), due="`end`, or a line that may stand here")
    lines.end()
    cuts = " cuts=yes" if has_cuts and kind == "bound" else words[4] or ""
    return "\n".join([f"sccl {given[0][-1]}", f"{words[1]}{cuts}{words[5] or ''}", *given, "frontier whole", *body, "end", ""])


def given_topology(lines: Lines, kind: str, topology: Optional[bytes]) -> List[str]:
    if kind == "degrade":
        if topology is not None:
            raise Refused("a text of degrade has its own topology, the one that the fault left: give no other")
        return topology_of(lines)
    if topology is None:
        raise Refused(f"a text of {kind} has no topology: give that of the search as the second file")
    other = Lines(topology, "the topology")
    found = topology_of(other)
    other.end()
    return found


def known(lines: Lines, nodes: List[str], names: List[str]) -> None:
    """Refuses the line that was taken last where it names no node."""
    unknown = next((it for it in names if it not in nodes), None)
    if unknown is not None:
        lines.refuse(f"{unknown} is no node of the topology", lines.at)


def points_of(lines: Lines, nodes: List[str]) -> List[str]:
    """The lines of the points, as they stand."""
    found: List[str] = []
    due: Tuple["re.Pattern[str]", ...] = POINT[:1]
    it = lines.taken(*due)
    while it:
        if it[0].startswith("send"):
            known(lines, nodes, [it[1], it[2]])
        found.append(it[0])
        due = {"point": POINT[1:2], "rounds": POINT[::2], "send": POINT[::2]}[it[0].split(" ")[0]]
        it = lines.taken(*due)
    if due == POINT[1:2]:
        lines.refuse("the rounds of the point are due", lines.at + 1)
    return found


def refuted_of(lines: Lines, kind: str, nodes: List[str]) -> List[Candidate]:
    """The candidates that are refuted, in whatever way, in the order of a report."""
    seen: Dict[Candidate, int] = {}
    for shape in REFUTED[kind]:
        it = lines.taken(shape)
        while it:
            candidate: Tuple[int, int, int] = (int(it[1]), int(it[2]), int(it[3]))
            if candidate in seen or not candidate[2]:
                lines.refuse("the candidate is none, or stood before", lines.at)
            known(lines, nodes, it[4].split() if len(it.groups()) > 3 else [])
            seen[candidate] = lines.at
            it = lines.taken(shape)
    return sorted(seen, key=in_search_order)
