"""Searches of the program for the scripts beside it, and the files that they leave."""
from __future__ import annotations

import os
import re
import subprocess
import sys
import time
from argparse import ArgumentParser, Namespace

ROOT = os.path.dirname(os.path.dirname(os.path.abspath(__file__)))

# As the launcher has it: memory that a candidate gives back is kept for the next.
os.environ.setdefault("MALLOC_TRIM_THRESHOLD_", "268435456")
os.environ.setdefault("MALLOC_MMAP_THRESHOLD_", "33554432")


def program() -> str:
    """The program as the launcher left it, which proves and builds it first where it is not current."""
    if subprocess.run([os.path.join(ROOT, "sccl"), "family", "kind=line", "size=1"], stdout=subprocess.DEVNULL).returncode:
        sys.exit("there is no program to run")
    return os.path.join(ROOT, "out", "sccl")


def add_program(parser: ArgumentParser) -> None:
    parser.add_argument("--program", metavar="PATH", help="the program itself; else that of the launcher, which builds it first")


def chosen(asked: Namespace) -> str:
    return os.path.abspath(asked.program or program())


def family(program: str, kind: str, size: int | str) -> bytes:
    return subprocess.run([program, "family", f"kind={kind}", f"size={size}"], stdout=subprocess.PIPE, check=True).stdout


def words(collective: str, k: int | str, steps: int | str, chunks: int | str, conflicts: int | str) -> list[str]:
    return ["synth", f"collective={collective}", f"k={k}", f"steps={steps}", f"chunks={chunks}", f"conflicts={conflicts}"]


def search(program: str, asked: list[str], topology: bytes, folder: str, limit: float | None = None) -> tuple[str, float]:
    """The report of a search, whose files are left in the folder `proofs` of this one, and its seconds."""
    start = time.perf_counter()
    ran = subprocess.run([program, *asked], input=topology, stdout=subprocess.PIPE, timeout=limit, cwd=folder)
    if ran.returncode:
        sys.exit(f"{' '.join(asked)}: status {ran.returncode}, {ran.stdout!r}")
    return ran.stdout.decode(), time.perf_counter() - start


def search_within(program: str, asked: list[str], topology: bytes, folder: str, limit: float) -> tuple[str | None, float]:
    """The same; but there is no report where the search took longer than the limit."""
    try:
        return search(program, asked, topology, folder, limit)
    except subprocess.TimeoutExpired:
        return None, limit


def check(program: str, report: str, folder: str) -> tuple[str, float]:
    """The output of `check` over a report and the files of a folder, and its seconds."""
    start = time.perf_counter()
    ran = subprocess.run([program, "check"], input=report.encode(), stdout=subprocess.PIPE, cwd=folder)
    return ran.stdout.decode().strip(), time.perf_counter() - start


def answers(report: str) -> dict[str, str]:
    """The answer to each candidate of a report, by the word of its files: point, refuted or unknown."""
    found: dict[str, str] = {}
    part: str | None = ""
    for line in report.splitlines():
        word, *rest = line.split(" ")
        if word in ("frontier", "joined"):
            part = "" if line == "frontier whole" else f"{rest[0]}-" if rest else None
        elif word in ("point", "refuted", "unknown") and part is not None:
            found[part + "-".join(rest[:3])] = word
    return found


class Shelf:
    """The folder `proofs` that a search left."""

    def __init__(self, folder: str) -> None:
        self.path = os.path.join(folder, "proofs")

    def file(self, candidate: str, kind: str) -> str:
        return os.path.join(self.path, f"{candidate}.{kind}")

    def changed(self, candidate: str, *kinds: str) -> float:
        return max(os.stat(self.file(candidate, it)).st_mtime for it in kinds)

    def candidates(self) -> list[str]:
        """In the order in which their formulas were written."""
        found = [it[:-4] for it in os.listdir(self.path) if it.endswith(".cnf")]
        return sorted(found, key=lambda it: (self.changed(it, "cnf"), in_order(it)))

    def lines(self, candidate: str) -> int:
        """How many lines were learned: those of the proof, or of the log. A point keeps none."""
        return max(count_lines(self.file(candidate, it)) for it in ("lrat", "partial"))


def in_order(word: str) -> tuple[int, float, int]:
    found = re.fullmatch(r"\D*(\d+)-(\d+)-(\d+)", word)
    assert found, word
    s, r, c = map(int, found.groups())
    return s, r / c, c


def count_lines(path: str) -> int:
    with open(path, "rb") as file:
        return sum(it.count(b"\n") for it in iter(lambda: file.read(1 << 20), b""))
