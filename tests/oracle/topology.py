"""Topology texts, of both versions."""
from __future__ import annotations

import re
from dataclasses import dataclass
from typing import List, Tuple

from .texts import Lines, need, needed, number

Link = Tuple[int, int]
Group = Tuple[int, List[Link]]
NAME = re.compile("[a-z0-9_]{1,16}")


@dataclass
class Pattern:
    """So many chunks, and the pairs (chunk, node) that are held before and have to be held after."""
    base: int
    before: set[tuple[int, int]]
    after: set[tuple[int, int]]


@dataclass
class Topology:
    """Names of nodes; groups, each a width and its links, which are pairs of nodes; and the pattern of a text of version 2."""
    names: list[str]
    groups: list[Group]
    pattern: Pattern | None = None

    def usable(self) -> list[Link]:
        return sorted({link for _, links in self.groups for link in links})


def whole_topology(text: bytes) -> Topology:
    lines = Lines(text)
    found = topology(lines)
    need(not lines.is_there(), 2, lines.number)
    return found


def topology(lines: Lines) -> Topology:
    """Takes a topology off some lines, or raises Refused."""
    patterned = version(lines) == 2
    return behind_nodes(lines, nodes(lines), patterned)


def behind_nodes(lines: Lines, names: list[str], patterned: bool) -> Topology:
    groups: list[Group] = []
    # (in a report what begins otherwise is no part of the topology, and in version 2 the pattern)
    while lines.begins("group "):
        groups.append(group(lines, names, len(groups)))
    return Topology(names, groups, pattern(lines, names) if patterned else None)


def version(lines: Lines) -> int:
    at = lines.number
    row = lines.take() if lines.is_whole() else ""
    need(row in ("topology 1", "topology 2"), 1, at)
    return int(row[-1])


def nodes(lines: Lines) -> list[str]:
    at = lines.number
    need(lines.is_there(), 11, at)
    need(lines.is_whole(), 2, at)
    word, *names = lines.take().split(" ")
    need((word, names) != ("nodes", []), 11, at)
    need(word == "nodes" and "" not in names, 2, at)
    for place, name in enumerate(names):
        need(place < 16, 9, at)
        need(NAME.fullmatch(name), 3, at)
        need(name not in names[:place], 4, at)
    return names


def group(lines: Lines, names: list[str], before: int) -> Group:
    at = lines.number
    need(lines.is_whole(), 2, at)
    words = lines.take().split(" ")
    need("" not in words and len(words) >= 3, 2, at)
    need(before < 256, 10, at)
    width = needed(number(words[1], 1, 16), 8, at)
    links: list[Link] = []
    for word in words[2:]:
        need(word.count(">") == 1, 2, at)
        ends = word.split(">")
        for end in ends:
            need(end in names, 5, at)
        a, b = map(names.index, ends)
        need(a != b, 6, at)
        need((a, b) not in links, 7, at)
        links.append((a, b))
    return width, links


def pattern(lines: Lines, names: list[str]) -> Pattern:
    at = lines.number
    need(lines.is_whole(), 2, at)
    words = lines.take().split(" ")
    need(words[0] == "custom" and len(words) == 2, 2, at)
    base = needed(number(words[1], 1, 16), 13, at)
    sides: dict[str, set[tuple[int, int]]] = {"before": set(), "after": set()}
    for chunk in range(base):
        for word, pairs in sides.items():
            pairs.update((chunk, node) for node in holders(lines, names, [word, str(chunk)]))
    return Pattern(base, sides["before"], sides["after"])


def holders(lines: Lines, names: list[str], due: list[str]) -> list[int]:
    at = lines.number
    need(lines.is_whole(), 2, at)
    words = lines.take().split(" ")
    need(words[:2] == due and "" not in words, 2, at)
    found: list[int] = []
    for name in words[2:]:
        need(name in names, 5, at)
        need(not found or found[-1] < names.index(name), 14, at)
        found.append(names.index(name))
    return found
