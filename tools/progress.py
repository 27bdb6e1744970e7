"""How far a run is that settles candidates or reads proofs, told by the folder `proofs` and by what the system counts."""
from __future__ import annotations

import os
import re

FOLDER = "proofs"
KINDS_OF_FILES = ".cnf", ".lrat", ".partial"
BLOCK = 1 << 20


class Untold:
    """A run that leaves no trace."""

    def __init__(self, words: list[str], text: bytes | None) -> None:
        pass

    def told(self, pid: int) -> list[str]:
        """What there is to tell, the most useful first."""
        return []

    def found_before(self) -> str:
        """What is to be said of files that stood there and are written over."""
        return ""

    def left(self) -> str:
        """What an interrupted run leaves."""
        return ""


class Search(Untold):
    """A search: for each candidate it writes a formula and then, line by line, what each conflict taught."""

    def __init__(self, words: list[str], text: bytes | None) -> None:
        self.asked = dict(it.split("=", 1) for it in words if "=" in it)
        self.can_keep, self.keeps = words[0] == "synth", self.asked.get("kept") == "yes"
        # (candidates that are cut leave no trace, so how many there may be would say nothing)
        self.most = 0 if "cuts" in self.asked else most_candidates(self.asked, text)
        self.before = times()
        self.log: str | None = None
        self.read = self.conflicts = 0

    def told(self, pid: int) -> list[str]:
        """How many candidates there were before, the candidate whose files were written to last, and its conflicts."""
        candidate, settled = self.at()
        if not candidate:
            return []
        self.count(f"{candidate}.partial")
        return [f"{settled}{f' of at most {self.most}' if self.most else ''} candidates settled", f"at {candidate}",
                f"{self.conflicts} of {self.asked.get('conflicts', '')} conflicts"]

    def at(self) -> tuple[str, int]:
        """The candidate that is searched, or nothing before the first, and how many were before."""
        written = {name: at for name, at in times().items() if self.before.get(name) != at}
        return (stem(max(written, key=lambda it: written[it])), len({*map(stem, written)}) - 1) if written else ("", 0)

    def found_before(self) -> str:
        if self.keeps or not self.at()[0] or not any(name.endswith(KINDS_OF_FILES) for name in self.before):
            return ""
        return (f"the folder {FOLDER} had files of an earlier search, whose report check may deny from now on; "
                "./sccl -C DIR runs a search in a folder of its own")

    def left(self) -> str:
        candidate, settled = self.at()
        if not candidate:
            return f"interrupted; no report is written, and no file of the folder {FOLDER} was changed"
        self.count(f"{candidate}.partial")
        again = "Started again, the search begins anew"
        if self.can_keep:
            again = f"Started again {'so' if self.keeps else 'with kept=yes'}, it searches nothing that is refuted, and the others anew"
        return (f"interrupted; no report is written. The folder {FOLDER} has the files of {settled} settled candidate{'s' * (settled != 1)}, "
                f"and {self.conflicts} conflicts of {candidate}. {again}; with fewer conflicts for each candidate, or tighter limits, it ends sooner")

    def count(self, log: str) -> None:
        """Reads on in a candidate's log, which has a line for each conflict."""
        if log != self.log:
            self.log, self.read, self.conflicts = log, 0, 0
        try:
            with open(os.path.join(FOLDER, log), "rb") as file:
                file.seek(self.read)
                for piece in iter(lambda: file.read(BLOCK), b""):
                    self.read, self.conflicts = self.read + len(piece), self.conflicts + piece.count(b"\n")
        except OSError:
            pass


class Audit(Untold):
    """A check of proofs. The system counts the bytes that a process has read."""

    def __init__(self, words: list[str], text: bytes | None) -> None:
        self.all = sum(it.st_size for it in files().values())

    def told(self, pid: int) -> list[str]:
        try:
            with open(f"/proc/{pid}/io") as file:
                read = int(file.readline().split()[1])
        except (OSError, ValueError, IndexError):
            return []
        return [f"{read / 1e6:.1f} MB read", f"the folder {FOLDER} has {self.all / 1e6:.1f}"]


KINDS: dict[str, type[Untold]] = {"synth": Search, "bound": Search, "check": Audit, "degrade": Audit, "ordered": Untold}


def progress_of(words: list[str], text: bytes | None) -> Untold | None:
    """What tells how far a run of these words is, made before it begins; or None where a run takes no time worth a line. `text` is
    what it reads, or None where that is not at hand."""
    kind = KINDS.get(words[0] if words else "")
    return kind(words, text) if kind else None


def most_candidates(asked: dict[str, str], text: bytes | None) -> int:
    """How many candidates a search has at most, or 0 where that can't be told."""
    if not all(asked.get(it, "").isdecimal() for it in ("k", "steps", "chunks")):
        return 0
    k, steps, chunks = (int(asked[it]) for it in ("k", "steps", "chunks"))
    nodes = re.search(rb"^nodes (.*)$", text or b"", re.M)
    if asked.get("collective") == "alltoall" and nodes:
        chunks //= len(nodes[1].split())
    return steps * (k + 1) * chunks * (2 if asked.get("collective") == "allreduce" else 1)


def stem(name: str) -> str:
    return name.split(".")[0]


def times() -> dict[str, int]:
    """When each file of the folder was written to last."""
    return {name: it.st_mtime_ns for name, it in files().items()}


def files() -> dict[str, os.stat_result]:
    """What the system says of each file of the folder."""
    found: dict[str, os.stat_result] = {}
    try:
        for it in os.scandir(FOLDER):
            if it.is_file():
                found[it.name] = it.stat()
    except OSError:
        pass
    return found
