"""Candidates: three numbers, the steps, the rounds in all, and the chunk count."""
from __future__ import annotations

from fractions import Fraction
from typing import Tuple

Candidate = Tuple[int, int, int]


def in_search_order(it: Candidate) -> Tuple[int, Fraction, int]:
    """The key by which candidates stand in a report."""
    return it[0], Fraction(it[1], it[2]), it[2]


def is_no_worse(one: Candidate, other: Candidate) -> bool:
    return one[0] <= other[0] and one[1] * other[2] <= other[1] * one[2]


def is_better(one: Candidate, other: Candidate) -> bool:
    return is_no_worse(one, other) and not is_no_worse(other, one)


def name_of(part: str, candidate: Candidate) -> str:
    """How a candidate of a part of a report is named, also in the folder `proofs`."""
    return ("" if part == "whole" else f"{part}-") + "-".join(map(str, candidate))
