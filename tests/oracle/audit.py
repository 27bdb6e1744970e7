"""What `check` answers to a report and the files beside it."""
from __future__ import annotations

from collections.abc import Iterator, Mapping
from typing import Tuple

from .collective import Candidate, allows, chunks, of_part
from .cuts import Cuts
from .formula import Formula
from .proof import is_refutation, is_spent_log
from .replay import Replay
from .report import Frontier, Point, Report, in_search_order, whole_report
from .texts import Refused

# A status and an output.
Answer = Tuple[int, bytes]
LIMIT, LARGEST, LONGEST = 1048576, 2000000, 281474976710656
VERIFIED = 0, b"verified\n"


def refused(status: int, code: int, place: int | str) -> Answer:
    return status, f"refused {status} {code} {place}\n".encode()


class Denied(Exception):
    """A check of an audit fails, for this reason and at this candidate, whose word has its part in front."""

    def __init__(self, reason: int, part: str, candidate: Candidate) -> None:
        self.reason, self.word = reason, "-".join(map(str, candidate) if part == "whole" else map(str, [part, *candidate]))


def checked(text: bytes, files: Mapping[str, bytes]) -> Answer:
    """The status and the output of `check`; files are bytes by name."""
    if len(text) > LIMIT:
        return refused(11, 0, LIMIT)
    try:
        report = whole_report(text)
    except Refused as why:
        return refused(7, why.code, why.line)
    if size(report) > LARGEST:
        return refused(9, 0, size(report))
    if not list(counts(report, report.kind)):
        return refused(10, 0, 0)
    try:
        for part, frontier in report.frontiers.items():
            Part(report, part, frontier, files).check()
        if report.kind == "allreduce":
            check_joined(report)
    except Denied as why:
        return refused(8, why.reason, why.word)
    return VERIFIED


def size(report: Report) -> int:
    most, steps = chunks(report.kind, report.topology, report.limits["chunks"]), report.limits["steps"]
    groups = sum(len(links) * most * steps * (1 + width * (1 + report.limits["k"])) for width, links in report.topology.groups)
    return most * len(report.topology.usable()) * steps + groups


def counts(report: Report, kind: str) -> Iterator[int]:
    return (it for it in range(1, report.limits["chunks"] + 1) if allows(kind, len(report.topology.names), it))


def is_no_worse(one: Candidate, other: Candidate) -> bool:
    return one[0] <= other[0] and one[1] * other[2] <= other[1] * one[2]


def is_better(one: Candidate, other: Candidate) -> bool:
    return is_no_worse(one, other) and not is_no_worse(other, one)


class Part:
    """A frontier of a report, with the files of its candidates."""

    def __init__(self, report: Report, part: str, frontier: Frontier, files: Mapping[str, bytes]) -> None:
        self.report, self.part, self.frontier, self.files = report, part, frontier, files
        self.kind = of_part(report.kind, part)
        self.cuts = Cuts(self.kind, report.root, report.topology, True) if report.has_cuts else None

    def need(self, test: object, reason: int, candidate: Candidate) -> None:
        if not test:
            raise Denied(reason, self.part, candidate)

    def check(self) -> None:
        frontier, places = self.frontier, [it for _, it in self.report.points()]
        for point in frontier.points:
            number = 1 + next(place for place, it in enumerate(places) if it is point)
            self.need(Replay(self.report, number).verdict() == "holds", 1, point.candidate)
        for it in frontier.refuted:
            if not self.is_cut(it):
                self.check_refuted(it)
        for it in frontier.unknown:
            log = self.file(it, "partial")
            self.need(len(log) <= LONGEST and is_spent_log(self.formula(it)[1], self.report.limits["conflicts"], log), 7, it)
        for it in self.within():
            listed = it in frontier.refuted or it in frontier.unknown
            self.need(listed or any(is_no_worse(point.candidate, it) for point in frontier.points), 3, it)
        for point in frontier.points:
            is_optimal = all(it in frontier.refuted for it in self.within() if is_better(it, point.candidate))
            self.need(point.mark == ("optimal" if is_optimal else "open"), 2, point.candidate)

    def is_cut(self, candidate: Candidate) -> bool:
        """Whether the words ask for cuts, and some set of nodes refutes it."""
        return self.cuts is not None and self.cuts.first(*candidate[1:]) is not None

    def name(self, candidate: Candidate, kind: str) -> str:
        word = "-".join(map(str, candidate)) + "." + kind
        return word if self.part == "whole" else f"{self.part}-{word}"

    def file(self, candidate: Candidate, kind: str) -> bytes:
        name = self.name(candidate, kind)
        self.need(name in self.files, 4, candidate)
        return self.files[name]

    def formula(self, candidate: Candidate) -> tuple[bytes, tuple[int, list[tuple[int, ...]]]]:
        """The text of its formula, by the words of the report, and its variables and clauses."""
        found = Formula(self.kind, self.report.root, self.report.topology, candidate, self.report.is_ordered)
        return found.text(), (found.variables, found.clauses)

    def is_kept(self, candidate: Candidate) -> bool:
        """Whether the files are its formula, and a refutation of that."""
        text, formula = self.formula(candidate)
        proof = self.files.get(self.name(candidate, "lrat"), b"")
        return self.files.get(self.name(candidate, "cnf")) == text and len(proof) <= LONGEST and is_refutation(formula, proof)

    def check_refuted(self, it: Candidate) -> None:
        text, formula = self.formula(it)
        self.need(self.file(it, "cnf") == text, 6, it)
        proof = self.file(it, "lrat")
        self.need(len(proof) <= LONGEST and is_refutation(formula, proof), 5, it)

    def within(self) -> list[Candidate]:
        """The candidates within the limits, in the order of the search."""
        steps, k = self.report.limits["steps"], self.report.limits["k"]
        found = [(s, r, c) for s in range(1, steps + 1) for r in range(s, s + k + 1) for c in counts(self.report, self.kind)]
        return sorted(found, key=in_search_order)


def check_joined(report: Report) -> None:
    """The joined points are the joins of each point that reduces with each that gathers as many chunks, in order, and each sums."""
    due = [joined(a, b) for a in report.frontiers["reduce"].points for b in report.frontiers["gather"].points if a.candidate[2] == b.candidate[2]]
    for place, it in enumerate(due):
        alone = Report(report.kind, report.limits, report.root, report.topology, {"whole": Frontier()}, [it])
        if Replay(alone, 1).verdict() != "holds" or report.joined[place:place + 1] != [it]:
            raise Denied(8, "joined", it.candidate)
    if len(report.joined) > len(due):
        raise Denied(8, "joined", report.joined[len(due)].candidate)


def joined(a: Point, b: Point) -> Point:
    steps = a.candidate[0]
    later = [(step + steps, chunk, sender, receiver) for step, chunk, sender, receiver in b.sends]
    candidate = steps + b.candidate[0], a.candidate[1] + b.candidate[1], a.candidate[2]
    return Point(candidate, "joined", a.rounds + b.rounds, a.sends + later, steps)
