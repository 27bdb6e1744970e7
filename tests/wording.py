"""Measures the documents: words a sentence on the average, outside of tables and samples, and words in the longest cell of a table.

usage: tests/wording.py [DOCUMENT..]   with no DOCUMENT, all of them

A span of code is one word. A sentence ends at a full stop, a question mark or the end of its paragraph or item, and not at a colon or a
semicolon. Each document is held to 20 words a sentence and to 60 words a cell: the status is 1 where one has more.
"""
import os
import re
import sys
from collections.abc import Iterator

ROOT = os.path.dirname(os.path.dirname(os.path.abspath(__file__)))
MOST_A_SENTENCE, MOST_A_CELL = 20, 60


def documents() -> list[str]:
    named = [it for it in ("README.md", "CONTRIBUTING.md") if os.path.exists(os.path.join(ROOT, it))]
    return [*named, *(f"docs/{it}" for it in sorted(os.listdir(os.path.join(ROOT, "docs"))) if it.endswith(".md"))]


def words(text: str) -> int:
    return sum(1 for it in re.sub(r"`[^`]*`", "X", text).split() if re.search(r"\w", it))


def blocks(text: str) -> Iterator[str]:
    """The paragraphs and the items of lists, without headings, tables and samples."""
    text = re.sub(r"^```.*?^```$", "", text, flags=re.M | re.S)
    text = re.sub(r"^[#|].*$", "", text, flags=re.M)
    for it in re.split(r"\n\s*\n|\n(?=\s*(?:-|\d+\.) )", text):
        block = re.sub(r"^\s*(?:-|\d+\.) ", "", it).strip()
        if block:
            yield block


def sentences(text: str) -> Iterator[str]:
    for block in blocks(text):
        plain = re.sub(r"`[^`]*`", "X", block)
        yield from (it for it in re.split(r"(?<=[.!?])[\")*]*\s+(?=[\"(*]*[A-Z])", plain) if words(it))


def cells(text: str) -> Iterator[str]:
    for row in re.findall(r"^\|(.*)\|$", re.sub(r"^```.*?^```$", "", text, flags=re.M | re.S), re.M):
        yield from row.split(" | ")


def measured(name: str) -> tuple[float, str, str]:
    """The words of a sentence on the average, the longest sentence, and the longest cell."""
    with open(os.path.join(ROOT, name)) as it:
        text = it.read()
    found = list(sentences(text)) or [""]
    return sum(map(words, found)) / len(found), max(found, key=words), max(cells(text), key=words, default="")


def is_held(name: str, is_telling: bool = False) -> bool:
    average, sentence, cell = measured(name)
    if is_telling:
        print(f"{name}: {average:.1f} words a sentence, {words(sentence)} in the longest; {words(cell)} words in the longest cell")
    return average <= MOST_A_SENTENCE and words(cell) <= MOST_A_CELL


if __name__ == "__main__":
    sys.exit(not all([is_held(it, is_telling=True) for it in sys.argv[1:] or documents()]))
