"""Topologies after a fault of their links, and what refutations before it settle."""
from __future__ import annotations

from .collective import Candidate
from .report import whole_report
from .topology import Topology


def narrowed(topology: Topology, group: int, width: int) -> Topology:
    """The topology whose group has this width; where that is 0 its links are gone from every group, and a group that has none is
    dropped."""
    if width:
        groups = [(width if number == group else wide, links) for number, (wide, links) in enumerate(topology.groups)]
        return Topology(topology.names, groups, topology.pattern)
    lost = set(topology.groups[group][1])
    groups = [(wide, [it for it in links if it not in lost]) for wide, links in topology.groups]
    return Topology(topology.names, [it for it in groups if it[1]], topology.pattern)


def spelled(topology: Topology) -> bytes:
    names, pattern = topology.names, topology.pattern
    rows = [f"topology {2 if pattern else 1}", " ".join(["nodes", *names])]
    for width, links in topology.groups:
        rows.append(" ".join([f"group {width}", *(f"{names[a]}>{names[b]}" for a, b in links)]))
    if pattern:
        rows.append(f"custom {pattern.base}")
        for chunk in range(pattern.base):
            for word, pairs in (("before", pattern.before), ("after", pattern.after)):
                rows.append(" ".join([f"{word} {chunk}", *(name for node, name in enumerate(names) if (chunk, node) in pairs)]))
    return "".join(f"{it}\n" for it in rows).encode()


def carries(one: Candidate, other: Candidate) -> bool:
    return one[0] == other[0] and one[1] >= other[1] and one[2] <= other[2]


class Fault:
    """A fault of a report: the topology that is left, and the text of what is found on it."""

    def __init__(self, report: bytes, group: int, width: int) -> None:
        self.old = whole_report(report)
        self.left = spelled(narrowed(self.old.topology, group, width))

    def text(self, found: bytes) -> bytes:
        """What is to be said where a search over what is left reports this."""
        frontier = whole_report(found).frontiers["whole"]
        rows = found.decode().splitlines()
        start = rows.index("frontier whole")
        points = [it for it in rows[start + 1:-1] if it.split(" ")[0] in ("point", "rounds", "send")]
        told: dict[str, list[str]] = {"carried": [], "refuted": []}
        for it in frontier.refuted:
            is_carried = any(carries(one, it) for one in self.old.frontiers["whole"].refuted)
            word = "carried" if is_carried else "refuted"
            told[word].append(" ".join(map(str, [word, *it])))
        unknown = [it for it in rows if it.startswith("unknown ")]
        head = "".join(f"{it}\n" for it in ("degraded 1", rows[1])).encode()
        tail = "".join(f"{it}\n" for it in ("frontier whole", *points, *told["carried"], *told["refuted"], *unknown, "end"))
        return head + self.left + tail.encode()
