"""Proof files: LRAT text, and which lines are accepted over a formula, RAT groups among them."""
from __future__ import annotations

import re
from collections.abc import Callable
from typing import List, Optional, Sequence, Tuple

Clause = Sequence[int]
Line = Tuple[int, Optional[List[int]], List[int]]
NUMBER = re.compile("[1-9][0-9]*")
MOST_ID, MOST_VARIABLE = 4294967295, 2147483647


class Refused(Exception):
    """The text is at fault, or a line is not accepted."""


def need(test: object) -> None:
    if not test:
        raise Refused


# ---- the text: an addition is (id, literals, hints), a deletion (id, None, ids)


def signed(token: str, most: int, may_be_negative: bool = True) -> int:
    sign = -1 if may_be_negative and token.startswith("-") else 1
    digits = token[1:] if sign < 0 else token
    need(NUMBER.fullmatch(digits) and int(digits) <= most)
    return sign * int(digits)


def up_to_zero(tokens: list[str], read: Callable[[str], int]) -> tuple[list[int], list[str]]:
    """What the tokens up to a `0` say, and the tokens behind it."""
    need("0" in tokens)
    end = tokens.index("0")
    return [read(it) for it in tokens[:end]], tokens[end + 1:]


def line_of(tokens: list[str]) -> Line:
    identifier = lambda it: signed(it, MOST_ID, False)
    first, rest = identifier(tokens[0]), tokens[1:]
    literals: list[int] | None = None
    if rest[:1] == ["d"]:
        found, rest = up_to_zero(rest[1:], identifier)
    else:
        literals, rest = up_to_zero(rest, lambda it: signed(it, MOST_VARIABLE))
        found, rest = up_to_zero(rest, lambda it: signed(it, MOST_ID))
    need(not rest)
    return first, literals, found


def lines_of(text: bytes) -> list[Line]:
    """The lines of a text. Spaces and tabs part tokens; a carriage return may stand before a line feed, the last of which may
    lack; empty lines say nothing, nor do those whose first token begins with `c`."""
    *whole, last = text.decode("latin-1").split("\n")
    rows = [it[:-1] if it.endswith("\r") else it for it in whole] + [last]
    tokens = [[token for token in re.split("[ \t]", it) if token] for it in rows]
    return [line_of(it) for it in tokens if it and not it[0].startswith("c")]


def formula_of(text: bytes) -> tuple[int, list[list[int]]]:
    """The number of variables and the clauses of a DIMACS text."""
    header, *rows = text.decode().splitlines()
    return int(header.split()[2]), [[int(it) for it in row.split()[:-1]] for row in rows]


# ---- lines


class Checker:
    """The clauses that are held, by number."""

    def __init__(self, variables: int, clauses: Sequence[Clause]) -> None:
        self.variables, self.held = variables, dict(enumerate(clauses, 1))
        self.greatest = len(clauses)
        self.is_refuted = False

    def take(self, line: Line) -> bool:
        """Takes a line, and says whether it is an addition that follows from what is held; or raises Refused."""
        number, literals, hints = line
        if literals is None:
            need(len(set(hints)) == len(hints) and all(it in self.held for it in hints))
            for it in hints:
                del self.held[it]
            return False
        need(number > self.greatest)
        need(all(abs(it) <= self.variables for it in literals))
        need(len({abs(it) for it in literals}) == len(literals))
        is_implied = self.follows(literals, hints)
        self.held[number], self.greatest = literals, number
        self.is_refuted = self.is_refuted or not literals
        return is_implied

    def follows(self, literals: list[int], hints: list[int]) -> bool:
        """Whether the hints are a conflict where the literals are false. If not, groups have to answer for the pivot."""
        groups = [place for place, it in enumerate(hints) if it < 0] + [len(hints)]
        start = self.led_to(set(literals), hints[:groups[0]])
        if start is None:
            need(groups[0] == len(hints))
            return True
        need(literals)
        pivot = literals[0]
        named: list[int] = []
        for place, end in zip(groups, groups[1:]):
            number = -hints[place]
            need(number in self.held and -pivot in self.held[number] and number not in named)
            named.append(number)
            self.close(start, self.held[number], pivot, hints[place + 1:end])
        for number, clause in self.held.items():
            need(-pivot not in clause or number in named or any(-it in start for it in clause if it != -pivot))
        return False

    def led_to(self, false: set[int], hints: list[int]) -> set[int] | None:
        """The literals that are false behind these hints, or None where the last of them is a conflict."""
        for place, hint in enumerate(hints):
            need(hint in self.held)
            left = {it for it in self.held[hint] if it not in false}
            if not left:
                need(place == len(hints) - 1)
                return None
            need(len(left) == 1)
            false = false | {-it for it in left}
        return false

    def close(self, start: set[int], clause: Clause, pivot: int, hints: list[int]) -> None:
        """A group: the clause's literals but the negated pivot are false too, and its hints are a conflict; unless one is true."""
        false = set(start)
        for it in clause:
            if it == -pivot:
                continue
            if -it in false:
                return
            false.add(it)
        need(self.led_to(false, hints) is None)


def is_refutation(formula: tuple[int, Sequence[Clause]], text: bytes) -> bool:
    checker = Checker(*formula)
    try:
        for line in lines_of(text):
            checker.take(line)
    except Refused:
        return False
    return checker.is_refuted


def is_spent_log(formula: tuple[int, Sequence[Clause]], conflicts: int, text: bytes) -> bool:
    """So many additions, each of which follows, has a literal, and is a superset of no clause that is held."""
    checker = Checker(*formula)
    try:
        lines = lines_of(text)
        need(len(lines) == conflicts)
        for line in lines:
            _, literals, _ = line
            need(literals and not any(set(it) <= set(literals) for it in checker.held.values()))
            need(checker.take(line))
    except Refused:
        return False
    return True
