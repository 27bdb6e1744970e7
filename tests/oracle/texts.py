"""Texts: their lines, tokens and numbers, and how a text is refused."""
from __future__ import annotations

import re
from typing import TypeVar

Found = TypeVar("Found")
NUMBER = re.compile("0|[1-9][0-9]*")


class Refused(Exception):
    """A text is refused, with a code and the line that is blamed."""

    def __init__(self, code: int, line: int) -> None:
        super().__init__(f"code {code}, line {line}")
        self.code, self.line = code, line


def number(token: str, least: int = 0, most: int | None = None) -> int | None:
    """The number that a token spells in canonical decimal, or None, also where it is out of range."""
    if not NUMBER.fullmatch(token):
        return None
    found = int(token)
    return found if least <= found and (most is None or found <= most) else None


class Lines:
    """The lines of a text, and the number of the first that was not taken yet."""

    def __init__(self, text: bytes) -> None:
        self.rows = text.decode("latin-1").split("\n")
        # (behind the last line feed stands nothing, or a line that lacks its own)
        self.whole = len(self.rows) - 1
        self.all = self.whole + (self.rows[-1] != "")
        self.number = 1

    def is_there(self, line: int | None = None) -> bool:
        return (line or self.number) <= self.all

    def is_whole(self, line: int | None = None) -> bool:
        return (line or self.number) <= self.whole

    def begins(self, word: str) -> bool:
        return self.is_there() and self.rows[self.number - 1].startswith(word)

    def take(self) -> str:
        self.number += 1
        return self.rows[self.number - 2]


def need(test: object, code: int, line: int) -> None:
    if not test:
        raise Refused(code, line)


def needed(found: Found | None, code: int, line: int) -> Found:
    """What was found, which has to be something."""
    if found is None:
        raise Refused(code, line)
    return found
