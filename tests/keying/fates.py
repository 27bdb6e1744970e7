"""What is done to the files of a candidate before a search looks at them: most of it makes them no refutation of its formula."""
from __future__ import annotations

import random
from collections.abc import Mapping
from typing import Optional, Tuple

from oracle.audit import Part
from oracle.collective import Candidate
from oracle.formula import Formula
from small_solver import Solver

# A formula and a proof; nothing in place of one that is not there.
Files = Tuple[Optional[bytes], Optional[bytes]]


def proof_of(formula: Formula) -> bytes:
    """A refutation of a formula by another solver, or nothing where it has a model."""
    solver = Solver(formula.variables, formula.clauses)
    return b"" if solver.solve() else solver.text().encode()


class Fates:
    """Fates of the candidates of a part of a report. `part` knows their formulas, `plain` has the files of the search without keys."""

    def __init__(self, draw: random.Random, part: Part, files: Mapping[str, bytes], plain: Mapping[str, bytes]) -> None:
        self.draw, self.part, self.files, self.plain = draw, part, files, plain
        self.all = [self.commented, self.commented, self.foreign, self.cut_short, self.hint_changed, self.end_lost, self.of_another, self.of_plain,
                    self.clause_less, self.byte_changed, self.proof_of_plain, self.lost, self.emptied, self.as_it_was]

    def fate(self, candidate: Candidate) -> dict[str, bytes | None]:
        """The three files of a candidate, as they are to be found; nothing in place of one that is not there."""
        cnf, lrat, partial = (self.files.get(self.part.name(candidate, it)) for it in ("cnf", "lrat", "partial"))
        cnf, lrat = self.draw.choice(self.all)(candidate, cnf or b"", lrat or b"")
        return {"cnf": cnf, "lrat": lrat, "partial": self.draw.choice([partial, b"1 0\n", None])}

    def of_cut(self, candidate: Candidate) -> dict[str, bytes | None]:
        """Files of a candidate that is cut, which would refute it too, and that nobody looks at."""
        cnf, lrat = self.foreign(candidate, self.part.formula(candidate)[0], b"")
        return {"cnf": cnf, "lrat": lrat, "partial": b"1 0\n"}

    def commented(self, candidate: Candidate, cnf: bytes, lrat: bytes) -> Files:
        return cnf, b"c stays\n" + lrat

    def foreign(self, candidate: Candidate, cnf: bytes, lrat: bytes) -> Files:
        """The proof of another solver, which may refute what was given up."""
        report = self.part.report
        return cnf, proof_of(Formula(self.part.kind, report.root, report.topology, candidate, report.is_ordered))

    def cut_short(self, candidate: Candidate, cnf: bytes, lrat: bytes) -> Files:
        return cnf, lrat[:self.draw.randint(0, len(lrat))]

    def hint_changed(self, candidate: Candidate, cnf: bytes, lrat: bytes) -> Files:
        """A number of the proof is another."""
        words = lrat.split(b" ")
        place = self.draw.randrange(len(words))
        return cnf, b" ".join([*words[:place], b"%d" % self.draw.randint(1, 40), *words[place + 1:]])

    def end_lost(self, candidate: Candidate, cnf: bytes, lrat: bytes) -> Files:
        return cnf, b"".join(lrat.splitlines(True)[:-1])

    def of_another(self, candidate: Candidate, cnf: bytes, lrat: bytes) -> Files:
        """Both files are another candidate's, or the proof is."""
        names = [it for it in self.files if it.endswith(".cnf")]
        other = self.draw.choice(sorted(names))
        return self.draw.choice([cnf, self.files[other]]), self.files.get(other[:-3] + "lrat", b"")

    def of_plain(self, candidate: Candidate, cnf: bytes, lrat: bytes) -> Files:
        """The formula without the clauses of the order, and a proof of it."""
        report = self.part.report
        formula = Formula(self.part.kind, report.root, report.topology, candidate)
        return formula.text(), self.plain.get(self.part.name(candidate, "lrat")) or proof_of(formula)

    def clause_less(self, candidate: Candidate, cnf: bytes, lrat: bytes) -> Files:
        """A formula that lacks a clause, also in its header."""
        header, *rows = cnf.splitlines(True)
        words = header.split()
        if rows:
            del rows[self.draw.randrange(len(rows))]
        return b"p cnf %d %d\n" % (int(words[2]), len(rows)) + b"".join(rows) if len(words) == 4 else cnf, lrat

    def byte_changed(self, candidate: Candidate, cnf: bytes, lrat: bytes) -> Files:
        at = self.draw.randrange(len(cnf) or 1)
        return cnf[:at] + self.draw.choice([b"", b"0", b" ", b"\n"]) + cnf[at + 1:], lrat

    def proof_of_plain(self, candidate: Candidate, cnf: bytes, lrat: bytes) -> Files:
        return cnf, self.plain.get(self.part.name(candidate, "lrat"), b"")

    def lost(self, candidate: Candidate, cnf: bytes, lrat: bytes) -> Files:
        return self.draw.choice([(None, lrat), (cnf, None), (None, None)])

    def emptied(self, candidate: Candidate, cnf: bytes, lrat: bytes) -> Files:
        return self.draw.choice([(b"", lrat), (cnf, b"")])

    def as_it_was(self, candidate: Candidate, cnf: bytes, lrat: bytes) -> Files:
        return cnf, lrat


def changed(draw: random.Random, report: bytes, files: Mapping[str, bytes]) -> tuple[bytes, dict[str, bytes]]:
    """A report and files in which one thing is another, which an audit may deny."""
    choice, files = draw.randrange(6), dict(files)
    names = sorted(it for it in files if files[it])
    lines = report.split(b"\n")
    if choice == 0 or not names:
        words = [it for it in lines[1].split(b" ") if it not in (b"cuts=yes", b"ordered=yes")]
        keys: list[bytes] = draw.choice([
            [b"cuts=yes"], [b"ordered=yes"], [b"cuts=yes", b"ordered=yes"], [b"ordered=yes", b"cuts=yes"], [], [b"kept=yes"], [b"cuts=no"], [b"cuts=yes"] * 2,
        ])
        lines[1] = b" ".join(words + keys)
    elif choice == 1:
        del files[draw.choice(names)]
    elif choice == 2:
        name = draw.choice(names)
        text = bytearray(files[name])
        text[draw.randrange(len(text))] = draw.choice(b"0123456789- \nd")
        files[name] = bytes(text)
    elif choice == 3:
        lines = [of_other_answer(draw, it, lines[1]) for it in lines]
    elif choice == 4:
        del lines[draw.randrange(2, len(lines))]
    else:
        one, other = draw.choice(names), draw.choice(names)
        files[one], files[other] = files[other], files[one]
    return b"\n".join(lines), files


def of_other_answer(draw: random.Random, line: bytes, asked: bytes) -> bytes:
    """A refuted candidate may be unknown, or the other way round; a mark may be the other."""
    words = line.split(b" ")
    if draw.random() < 0.5:
        return line
    if words[0] == b"refuted":
        return b" ".join([b"unknown", *words[1:], asked.split(b"conflicts=")[1].split(b" ")[0]])
    if words[0] == b"unknown":
        return b" ".join([b"refuted", *words[1:4]])
    return line.replace(b" optimal", b" OPEN").replace(b" open", b" optimal").replace(b" OPEN", b" open") if words[0] == b"point" else line


def random_of(number: int) -> random.Random:
    return random.Random(-1 - number)
