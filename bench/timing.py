"""Times the program itself, not its launcher, on reports of two sizes, beside a run that does next to nothing."""
from __future__ import annotations

import os
import subprocess
import sys
import time
from collections.abc import Callable
from typing import Tuple

sys.path.insert(0, os.path.join(os.path.dirname(os.path.dirname(os.path.abspath(__file__))), "tests"))
import shelf

LIMIT = 1048576
Link = Tuple[int, int]


def report(name: Callable[[int], str], nodes: int, groups: list[list[Link]], chunks: int, sends: list[tuple[int, int, Link]]) -> bytes:
    """A report of a broadcast over nodes that are called name(0), name(1) and so on; the groups are lists of links."""
    steps, spelled = 8, lambda link: f"{name(link[0])}>{name(link[1])}"
    lines = ["sccl 1", f"synth collective=broadcast k=8 steps={steps} chunks=16 conflicts=1000 root={name(0)}", "topology 1"]
    lines.append("nodes " + " ".join(name(it) for it in range(nodes)))
    lines += ["group 16 " + " ".join(map(spelled, it)) for it in groups]
    lines += ["frontier whole", f"point {steps} {2 * steps} {chunks} optimal", "rounds " + " ".join(["2"] * steps)]
    lines += [f"send {chunk} {name(a)} {name(b)} {step}" for step, chunk, (a, b) in sends]
    return "\n".join([*lines, "end", ""]).encode()


def all_links(nodes: int) -> list[Link]:
    return [(a, b) for a in range(nodes) for b in range(nodes) if a != b]


def seconds(words: list[str], text: bytes, verdict: bytes = b"") -> float:
    """The best of 25 runs. The last line but one of the output has to begin with the verdict."""
    times = []
    for _ in range(25):
        start = time.perf_counter()
        done = subprocess.run(words, input=text, capture_output=True)
        times.append(time.perf_counter() - start)
        if done.returncode or verdict not in done.stdout[-40:]:
            sys.exit(f"status {done.returncode}: {done.stdout[-40:]!r}")
    return min(times)


def compare(sizes: list[tuple[str, bytes]], verdict: bytes) -> None:
    """Prints the seconds for each of two sizes, each said in words beside its text, and how they grow beside the texts."""
    run = shelf.program()
    empty = seconds([run, "family", "kind=line", "size=1"], b"")
    print(f"empty run: {empty:.4f} s")
    measured: list[tuple[int, float]] = []
    for what, text in sizes:
        assert len(text) <= LIMIT, len(text)
        measured.append((len(text), seconds([run, "replay", "point=1"], text, verdict)))
        print(f"{what}, {len(text)} bytes: {measured[-1][1]:.4f} s")
    (small, fast), (large, slow) = measured
    print(f"the text grows {large / small:.2f} times, the time above the empty run {(slow - empty) / (fast - empty):.2f} times")
