"""The searches that the numbers of trials stand for."""
from __future__ import annotations

FAMILIES = "line", "ring", "complete", "shared"
COLLECTIVES = "broadcast", "gather", "allgather", "scatter", "alltoall", "reduce", "reducescatter", "allreduce"
ROOTED = "broadcast", "gather", "scatter", "reduce"
TRIALS = range(4096)


def search(n: int, conflicts: int = 2000) -> tuple[str, int, list[str]]:
    """Kind and size of the family, and the words of the search."""
    size, collective = 3 + n // 4 % 8, COLLECTIVES[n // 32 % 8]
    chunks = size if collective == "alltoall" else 1 + n // 2048 % 2
    words = ["synth", f"collective={collective}", f"k={n // 256 % 2}", f"steps={1 + n // 512 % 4}", f"chunks={chunks}"]
    return FAMILIES[n % 4], size, [*words, f"conflicts={conflicts}", *(["root=n0"] if collective in ROOTED else [])]
