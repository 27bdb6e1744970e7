#!/usr/bin/env python3
"""A small SAT solver that learns clauses, for tests alone. It writes what it learns as LRAT.

usage: tests/small_solver.py FORMULA PROOF     prints a model as lines `v ..` and ends with 10, or refutes it and ends with 20
"""
from __future__ import annotations

import sys
from collections.abc import Iterable, Sequence


class Solver:
    """Clauses by number, a trail, and what is true. `lines` are the lines of the proof."""

    def __init__(self, variables: int, clauses: Sequence[Iterable[int]]) -> None:
        self.variables, self.many = variables, len(clauses)
        self.clauses: dict[int, list[int]] = {}
        self.lines: list[tuple[int, list[int], list[int]]] = []
        self.values: dict[int, bool] = {}
        self.reasons: dict[int, int | None] = {}
        self.levels: dict[int, int] = {}
        self.trail: list[int] = []
        self.decisions: list[int] = []
        self.next, self.step = 0, 1.0
        self.watching: dict[int, list[int]] = {}
        self.weights = {it: 0.0 for it in range(1, variables + 1)}
        self.conflict: int | None = None
        for number, clause in enumerate(clauses, 1):
            self.add(number, list(dict.fromkeys(clause)))

    def value(self, literal: int) -> bool | None:
        found = self.values.get(abs(literal))
        return None if found is None else found == (literal > 0)

    def add(self, number: int, clause: list[int]) -> None:
        """Holds a clause, whose first literal follows from it where the others are false; says where it is false itself."""
        self.clauses[number] = clause
        for it in clause[:2]:
            self.watching.setdefault(it, []).append(number)
            self.weights[abs(it)] += 0.01
        if len(clause) < 2 and self.conflict is None:
            if not clause or self.value(clause[0]) is False:
                self.conflict = number
            elif self.value(clause[0]) is None:
                self.take(clause[0], number)

    def take(self, literal: int, reason: int | None) -> None:
        variable = abs(literal)
        self.values[variable], self.reasons[variable], self.levels[variable] = literal > 0, reason, len(self.decisions)
        self.trail.append(literal)

    def propagate(self) -> int | None:
        """The number of a clause that is false, once what follows has been taken, or None."""
        if self.conflict is not None:
            return self.conflict
        while self.next < len(self.trail):
            false = -self.trail[self.next]
            self.next += 1
            watching = self.watching.get(false, [])
            kept = self.watching[false] = []
            for place, number in enumerate(watching):
                clause = self.clauses[number]
                if clause[0] == false:
                    clause[0], clause[1] = clause[1], clause[0]
                if self.value(clause[0]) or not self.moved(number, clause):
                    kept.append(number)
                    if self.value(clause[0]) is False:
                        kept += watching[place + 1:]
                        return number
                    if self.value(clause[0]) is None:
                        self.take(clause[0], number)
        return None

    def moved(self, number: int, clause: list[int]) -> bool:
        """Has a clause watch another literal in the place of its second, which is false; whether there is one."""
        for place in range(2, len(clause)):
            if self.value(clause[place]) is not False:
                clause[1], clause[place] = clause[place], clause[1]
                self.watching.setdefault(clause[1], []).append(number)
                return True
        return False

    def solve(self, most: int | None = None) -> bool | None:
        """True where there is a model, False where it is refuted, None after so many conflicts."""
        while True:
            false = self.propagate()
            if false is not None:
                self.learn(false)
                if not self.lines[-1][1]:
                    return False
                if len(self.lines) == most:
                    return None
            elif not self.decide():
                return True

    def decide(self) -> bool:
        left = [it for it in range(1, self.variables + 1) if it not in self.values]
        if left:
            self.decisions.append(len(self.trail))
            self.take(-max(left, key=lambda it: self.weights[it]), None)
        return bool(left)

    def learn(self, false: int) -> None:
        """Learns a clause with one literal of the last level, which follows where the others are false; or that with none."""
        level = len(self.decisions)
        seen: set[int] = set()
        learned: list[int] = []
        hints: list[int] = []
        place, open_ones, number = len(self.trail), 0, false
        while True:
            hints.append(number)
            for it in self.clauses[number]:
                if abs(it) not in seen and self.value(it) is False:
                    seen.add(abs(it))
                    self.weights[abs(it)] += self.step
                    if self.levels[abs(it)] == level:
                        open_ones += 1
                    elif self.levels[abs(it)]:
                        learned.append(it)
            place, literal = self.last_of(place, seen, level)
            if literal is None or level and open_ones == 1:
                break
            open_ones -= 1
            number = self.reason(literal)
        if level:
            assert literal is not None
            learned.insert(0, -literal)
        self.step *= 1.05
        self.keep(learned, self.fixed(hints) + hints[::-1])

    def reason(self, literal: int) -> int:
        """The clause from which it followed: it was not decided."""
        found = self.reasons[abs(literal)]
        assert found is not None
        return found

    def last_of(self, place: int, seen: set[int], level: int) -> tuple[int, int | None]:
        """The last literal of the trail before the place that was seen, of this level."""
        while place:
            place -= 1
            if abs(self.trail[place]) in seen and self.levels[abs(self.trail[place])] == level:
                return place, self.trail[place]
        return 0, None

    def fixed(self, hints: list[int]) -> list[int]:
        """The clauses from which follows what is so without a decision, as far as these hints need it, in the order of the trail."""
        if not self.decisions:
            return []
        due = {abs(it) for number in hints for it in self.clauses[number] if not self.levels.get(abs(it), 1)}
        found = []
        for it in reversed(self.trail[:self.decisions[0]]):
            if abs(it) in due:
                reason = self.reason(it)
                found.append(reason)
                due |= {abs(other) for other in self.clauses[reason]}
        return found[::-1]

    def keep(self, learned: list[int], hints: list[int]) -> None:
        number = self.many + len(self.lines) + 1
        self.lines.append((number, list(learned), hints))
        if not learned:
            return
        levels = sorted({self.levels[abs(it)] for it in learned[1:]})
        self.go_back(levels[-1] if levels else 0)
        learned[1:] = sorted(learned[1:], key=lambda it: -self.levels[abs(it)])
        self.add(number, learned)
        if len(learned) > 1:
            self.take(learned[0], number)

    def go_back(self, level: int) -> None:
        """Drops what followed from later decisions."""
        if level < len(self.decisions):
            for it in self.trail[self.decisions[level]:]:
                del self.values[abs(it)]
            del self.trail[self.decisions[level]:]
            del self.decisions[level:]
            self.next = len(self.trail)

    def text(self) -> str:
        """The lines of the proof."""
        rows = (" ".join(map(str, [number, *clause, 0, *hints, 0])) for number, clause, hints in self.lines)
        return "".join(f"{it}\n" for it in rows)


def main() -> None:
    with open(sys.argv[1]) as file:
        header, *rows = file.read().splitlines()
    solver = Solver(int(header.split()[2]), [[int(it) for it in row.split()[:-1]] for row in rows])
    is_solved = solver.solve()
    with open(sys.argv[2], "w") as file:
        file.write("" if is_solved else solver.text())
    if is_solved:
        print("s SATISFIABLE", *(f"v {it if solver.values[it] else -it}" for it in range(1, solver.variables + 1)), "v 0", sep="\n")
    sys.exit(10 if is_solved else 20)


if __name__ == "__main__":
    main()
