"""Holds the table of statuses and codes, tools/refusals.py, and the page of usage to docs/FORMATS.md: prints what differs.

The status is 0 where nothing does.
"""
from __future__ import annotations

import os
import re
import sys
from collections.abc import Collection, Iterator, Mapping

ROOT = os.path.dirname(os.path.dirname(os.path.abspath(__file__)))
sys.path.insert(0, os.path.join(ROOT, "tools"))
from refusals import CODES, PLACES, STATUSES
from words import COMMANDS, VALUES

OF_LAUNCHER = {"0", "70"}


def sections(text: str) -> dict[str, list[list[str]]]:
    """The rows of the tables of each section, by its name."""
    found = {}
    for part in re.split("^## ", text, flags=re.M)[1:]:
        rows = re.findall(r"^\| (.*) \|$", part, re.M)
        found[part.split("\n")[0]] = [[it.strip() for it in row.split(" | ")] for row in rows]
    return found


def differences(formats: str, usage: str) -> Iterator[str]:
    rows = sections(formats)
    statuses = {row[0]: row[1] for row in rows["Refusals"] if row[0].isdigit() and not row[1].isdigit()}
    yield from unlike("statuses", {str(it): text for it, text in STATUSES.items()}, without(statuses, OF_LAUNCHER))
    for status, codes in CODES.items():
        _, section = PLACES[status]
        found = {row[0]: row[1] for row in rows[section] if row[0].isdigit() and len(row) == 3}
        if section == "Refusals":
            found = {row[1]: row[2] for row in rows[section] if row[0] == str(status) and row[1].isdigit()}
        yield from unlike(f"codes of status {status}", {str(it): text for it, text in codes.items()}, found)
    words = [row[0].strip("`") for row in rows["Words of the command line"] if re.fullmatch("`[a-z]+`", row[0])]
    said = re.findall(r"^([a-z]+) {2,}", usage, re.M)
    yield from unlike("commands and keys of the page of usage", dict.fromkeys(said), dict.fromkeys(words))


def unlike_pages() -> Iterator[str]:
    """What differs between the page of each command and the tables: its keys, those that may be left out, and ranges."""
    for command, (required, free, reads) in COMMANDS.items():
        page = read(f"tools/help/{command}.txt")
        usage, read_there = found_in(r"^usage: \./sccl (.*?)(?: < [A-Z]+)?$", page), found_in("^Reads +(.*)$", page)
        due = " ".join([command, *(f"{it}=.." for it in required), *(f"[{it}=..]" for it in free)])
        rows = dict(re.findall(r"^([a-z]+) {2,}(.*)$", page.split("\n\n", 3)[3], re.M))
        yield from unlike(f"page of {command}", {"usage": due, "reads": reads, "keys": [*required, *free]},
                          {"usage": usage, "reads": read_there, "keys": list(rows)})
        for key, text in ((it, text) for it, text in rows.items() if it != "root"):
            yield from unlike(f"page of {command}, {key}", {"numbers": numbers(VALUES[key]) - {"0"}}, {"numbers": numbers(text) - {"0"}})


def found_in(pattern: str, page: str) -> str:
    """What the pattern's group is on the page; nothing where the page has no such line."""
    found = re.search(pattern, page, re.M)
    return found[1] if found else ""


def numbers(text: str) -> set[str]:
    return set(re.findall("[0-9]+", text.split(": ")[-1] if "size" not in text else text))


def without(rows: dict[str, str], keys: Collection[str]) -> dict[str, str]:
    return {it: text for it, text in rows.items() if it not in keys}


def unlike(what: str, one: Mapping[str, object], other: Mapping[str, object]) -> Iterator[str]:
    for it in sorted({*one, *other}):
        if (it in one, one.get(it)) != (it in other, other.get(it)):
            yield f"{what}: {it}: {one.get(it, 'nothing')!r} and {other.get(it, 'nothing')!r}"


def read(name: str) -> str:
    with open(os.path.join(ROOT, name)) as it:
        return it.read()


found = [*differences(read("docs/FORMATS.md"), read("tools/usage.txt")), *unlike_pages()]
for it in found:
    print(it)
sys.exit(bool(found))
