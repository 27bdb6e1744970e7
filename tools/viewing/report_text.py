"""The text of a report, or of `bound`, `ordered` and `degrade`, read as `sccl json what=report` does."""
from __future__ import annotations

from collections.abc import Callable
from typing import Any, Dict, TypeVar

Found = TypeVar("Found")
# An object of JSON.
Value = Dict[str, Any]
NUMBERS = "k", "steps", "chunks", "conflicts"
# The words behind the limits that are given by `yes` alone.
KEYS_WITH_YES = "cuts", "ordered"
REPORTS, SEARCHES = ("sccl 1", "sccl 2"), ("bound 1", "ordered 1", "degraded 1")


def value_of_text(text: str, topology: str | None = None) -> Value:
    """The value of a text, whose topology is that of the second text if it has none of its own. ValueError says that it is none,
    with the line. It may take texts that are none. What `bound` cut stands under `cut` with the names of the set, what `degrade`
    carried under `carried`, and the floor under `floor`."""
    reader, other = Reader(text), None if topology is None else Reader(topology)
    try:
        return reader.search(other) if reader.lines[0] in SEARCHES else reader.report()
    except (ValueError, IndexError) as why:
        raise ValueError(f"line {reader.at}: {why}") from None


class Reader:
    def __init__(self, text: str) -> None:
        self.lines, self.at = text.split("\n"), 0

    def take(self) -> list[str]:
        self.at += 1
        return self.lines[self.at - 1].split(" ")

    def numbers(self) -> list[int]:
        return [int(it) for it in self.take()[1:]]

    def each(self, word: str, one: Callable[[], Found]) -> list[Found]:
        """What `one` makes of each line that begins with the word, and of those that belong to it."""
        found: list[Found] = []
        while self.at < len(self.lines) and self.lines[self.at].split(" ")[0] == word:
            found.append(one())
        return found

    def report(self) -> Value:
        self.holds(" ".join(self.take()) in REPORTS, "it does not begin as one")
        found: Value = {"words": self.words(), "topology": self.topology()}
        found["frontiers"] = self.each("frontier", self.frontier)
        found["joined"] = [it for part in self.each("joined", self.joined) for it in part]
        self.holds(self.take() == ["end"], "it does not end as one")
        return found

    def search(self, other: Reader | None) -> Value:
        """What `bound`, `ordered` and `degrade` print."""
        kind = self.take()[0]
        found: Value = {"words": self.words()}
        if kind == "bound":
            _, most, least, *names = self.take()
            found["floor"] = int(most), int(least), names
        whose = self if kind == "degraded" else other
        if whose is None:
            raise ValueError(f"a text of {kind} has no topology: give that of the search too")
        found["topology"] = whose.topology()
        found["frontiers"], found["joined"] = self.each("frontier", self.frontier), []
        self.holds(self.take() == ["end"], "it does not end as one")
        return found

    def words(self) -> dict[str, int | str]:
        _, *given = self.take()
        words = dict(it.split("=") for it in given)
        self.holds(all(words.get(it, "yes") == "yes" for it in KEYS_WITH_YES), "`cuts` and `ordered` are given by `yes`")
        return {key: int(it) if key in NUMBERS else it for key, it in words.items()}

    def holds(self, test: bool, otherwise: str) -> None:
        if not test:
            raise ValueError(otherwise)

    def topology(self) -> Value:
        found: Value = {"version": self.numbers()[0], "nodes": self.take()[1:], "groups": self.each("group", self.group)}
        if found["version"] == 2:
            sides = [(self.take()[2:], self.take()[2:]) for _ in range(self.numbers()[0])]
            found["custom"] = {"before": [it for it, _ in sides], "after": [it for _, it in sides]}
        return found

    def group(self) -> Value:
        _, width, *links = self.take()
        return {"width": int(width), "links": [it.split(">") for it in links]}

    def frontier(self) -> Value:
        part = self.take()[1]
        return {"part": part, "points": self.each("point", self.point), "cut": self.each("cut", self.cut),
                "carried": self.each("carried", self.numbers), "refuted": self.each("refuted", self.numbers),
                "unknown": self.each("unknown", self.numbers)}

    def cut(self) -> list[Any]:
        _, steps, rounds, chunks, *names = self.take()
        return [int(steps), int(rounds), int(chunks), names]

    def joined(self) -> list[Value]:
        self.take()
        return self.each("point", self.point)

    def point(self) -> Value:
        _, steps, rounds, chunks, mark, *adding = self.take()
        found: Value = {"s": int(steps), "r": int(rounds), "c": int(chunks), "mark": mark, "rounds": self.numbers()}
        found["sends"] = self.each("send", self.send)
        return {**found, "adding": int(adding[0])} if adding else found

    def send(self) -> list[int | str]:
        _, chunk, sender, receiver, step = self.take()
        return [int(chunk), sender, receiver, int(step)]
