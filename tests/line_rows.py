"""The rows of tests/lines: formulas, and how many lines a search learns for each."""
from __future__ import annotations

import os
import re
from typing import NamedTuple

from oracle.formula import Formula
from oracle.topology import whole_topology

ROOT = os.path.dirname(os.path.dirname(os.path.abspath(__file__)))
PATH = os.path.join(ROOT, "tests", "lines")


class Search(NamedTuple):
    command: str
    topology: str
    turn: int
    collective: str
    k: int
    steps: int
    chunks: int


class Row(NamedTuple):
    search: Search
    candidate: str
    answer: str
    lines: int


def read() -> list[Row]:
    with open(PATH) as file:
        return [row_of(it) for it in file if it.strip() and not it.startswith("#")]


def write(rows: list[Row]) -> None:
    """Puts these rows in place of those of the file, below its head."""
    with open(PATH) as file:
        head = [it for it in file if it.startswith("#")]
    body = [" ".join(map(str, [*it.search, it.candidate, it.answer, it.lines])) + "\n" for it in rows]
    with open(PATH, "w") as file:
        file.writelines(head + body)


def row_of(text: str) -> Row:
    command, topology, turn, collective, k, steps, chunks, candidate, answer, lines = text.split()
    return Row(Search(command, topology, int(turn), collective, int(k), int(steps), int(chunks)), candidate, answer, int(lines))


def allowed(lines: int) -> int:
    """A tenth more."""
    return lines + lines // 10


def words_of(search: Search, conflicts: int) -> list[str]:
    """The words of the search on a command line."""
    named = {"collective": search.collective, "k": search.k, "steps": search.steps, "chunks": search.chunks, "conflicts": conflicts}
    return [search.command, *(f"{name}={it}" for name, it in named.items())]


def answers_of(report: str) -> dict[str, str]:
    """The answer to each candidate that a report names."""
    found = re.findall(r"^(point|refuted|unknown) (\d+) (\d+) (\d+)\b", report, re.M)
    return {"-".join(it): answer for answer, *it in found}


def family_of(kind: str, size: int) -> str:
    """The topology that `family` writes."""
    ends = {
        "ring": lambda node: {(node + 1) % size, (node - 1) % size},
        "complete": lambda node: set(range(size)) - {node},
        "cube": lambda node: {node ^ 1 << bit for bit in range(size.bit_length() - 1)},
    }[kind]
    links = [f"group 1 n{node}>n{end}" for node in range(size) for end in sorted(ends(node))]
    return "".join(f"{it}\n" for it in ["topology 1", "nodes " + " ".join(f"n{node}" for node in range(size)), *links])


def topology_of(search: Search) -> str:
    example = os.path.join(ROOT, "examples", f"{search.topology}.topology")
    if os.path.exists(example):
        with open(example) as file:
            return turned(file.read(), search.turn)
    kind, size = search.topology.split("_")
    return turned(family_of(kind, int(size)), search.turn)


def turned(text: str, turn: int) -> str:
    """The topology in which each name stands for the node so many places behind its own, with its groups in order."""
    if turn == 0:
        return text
    words = names_of(text)
    return renamed(text, {it: words[(place + turn) % len(words)] for place, it in enumerate(words)})


def names_of(text: str) -> list[str]:
    """The names of a topology's nodes."""
    return text.splitlines()[1].split()[1:]


def renamed(text: str, names: dict[str, str]) -> str:
    """The topology in which each name stands for another node, with its groups in order."""
    head, nodes, *groups = text.splitlines()
    places = {it: place for place, it in enumerate(names_of(text))}
    moved = [links_of(it, names, places) for it in groups]
    moved.sort(key=lambda group: (len(group[1]) > 1, [[places[it] for it in link] for link in group[1]]))
    lines = [f"group {width} " + " ".join(">".join(it) for it in links) for width, links in moved]
    return "".join(f"{it}\n" for it in [head, nodes, *lines])


def links_of(group: str, names: dict[str, str], places: dict[str, int]) -> tuple[str, list[list[str]]]:
    """A group's width, and its links by their new names, in order."""
    _, width, *links = group.split()
    renamed = [[names[end] for end in link.split(">")] for link in links]
    return width, sorted(renamed, key=lambda link: [places[it] for it in link])


def formula_of(topology: str, collective: str, candidate: str) -> bytes:
    """The formula of a candidate, in DIMACS."""
    steps, rounds, chunks = map(int, candidate.split("-"))
    return Formula(collective, 0, whole_topology(topology.encode()), (steps, rounds, chunks)).text()
