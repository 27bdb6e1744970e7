"""Holds what tools/progress.py tells of a run to a folder that changes meanwhile, and the line at the terminal that tells of it to its
width. Prints what differs."""
from __future__ import annotations

import os
import sys
import tempfile

ROOT = os.path.dirname(os.path.dirname(os.path.abspath(__file__)))
sys.path.insert(0, os.path.join(ROOT, "tools"))
import attend
from progress import Search, Untold, progress_of

SYNTH = "synth collective=broadcast k=1 steps=3 chunks=2 conflicts=50 root=a".split()
EARLIER = "the folder proofs had files of an earlier search"
FOUR = b"topology 1\nnodes a b c d\ngroup 1 a>b\n"
# Words of a search, its topology, and the most candidates that are told.
MOST = [
    ("broadcast k=0 steps=1 chunks=1", FOUR, 1), ("broadcast k=2 steps=3 chunks=4", FOUR, 36), ("broadcast k=2 steps=3 chunks=4", None, 36),
    ("allreduce k=2 steps=3 chunks=4", FOUR, 72), ("alltoall k=1 steps=3 chunks=9", FOUR, 12), ("alltoall k=1 steps=3 chunks=8", FOUR, 12),
    ("broadcast k=x steps=3 chunks=4", FOUR, 0), ("broadcast k=1 steps=3", FOUR, 0),
]


class Rows:
    def __init__(self) -> None:
        self.differ = 0

    def equal(self, what: str, found: object, wanted: object) -> None:
        if found != wanted:
            self.differ += 1
            print(f"{what}: {found!r} and not {wanted!r}")


class Folder:
    """The folder `proofs`, in which each file that is written is newer than those before."""

    def __init__(self) -> None:
        self.now = 10 ** 18
        os.makedirs("proofs", exist_ok=True)

    def write(self, name: str, text: str = "", how: str = "w") -> None:
        with open(os.path.join("proofs", name), how) as file:
            file.write(text)
        self.now += 1
        os.utime(os.path.join("proofs", name), ns=(self.now, self.now))

    def begin(self, candidate: str, lines: str) -> None:
        for kind in ("cnf", "lrat", "partial"):
            self.write(f"{candidate}.{kind}", "" if kind == "cnf" else lines)


def begun(words: list[str], text: bytes | None) -> Untold:
    """What tells of a run that takes long."""
    found = progress_of(words, text)
    assert found is not None
    return found


def check_search(rows: Rows) -> None:
    folder = Folder()
    search = begun(SYNTH, FOUR)
    rows.equal("nothing written", (search.told(0), search.found_before()), ([], ""))
    rows.equal("what that leaves", "no file of the folder proofs was changed" in search.left(), True)
    for candidate, lines, settled, conflicts in (
        ("1-1-2", "a\nb\nc\n", 0, 3), ("reduce-1-1-1", "a\n", 1, 1), ("2-2-1", "", 2, 0), ("2-3-1", "a\nb\n" * 40000, 3, 80000),
    ):
        folder.begin(candidate, lines)
        wanted = [f"{settled} of at most 12 candidates settled", f"at {candidate}", f"{conflicts} of 50 conflicts"]
        rows.equal(f"at {candidate}", search.told(0), wanted)
        rows.equal(f"at {candidate} again", search.told(0), wanted)
    folder.write("2-3-1.partial", "c\nd\nin part", "a")
    rows.equal("more lines", search.told(0)[2], "80002 of 50 conflicts")
    folder.write("2-3-1.partial", " and whole\n", "a")
    rows.equal("a line that was in part", search.told(0)[2], "80003 of 50 conflicts")
    rows.equal("what that leaves", "the files of 3 settled candidates, and 80003 conflicts of 2-3-1" in search.left(), True)
    rows.equal("files that nothing had before", search.found_before(), "")


def check_earlier(rows: Rows) -> None:
    folder = Folder()
    folder.begin("1-1-1", "a\nb\n")
    folder.begin("3-3-1", "a\n")
    search = begun(SYNTH, FOUR)
    rows.equal("files of an earlier search", (search.told(0), search.found_before()), ([], ""))
    folder.begin("1-1-1", "x\n")
    rows.equal("files that are written anew", search.told(0), ["0 of at most 12 candidates settled", "at 1-1-1", "1 of 50 conflicts"])
    rows.equal("files that are written anew, in words", search.found_before().startswith(EARLIER), True)
    folder.begin("2-2-1", "")
    rows.equal("one that is new", search.told(0), ["1 of at most 12 candidates settled", "at 2-2-1", "0 of 50 conflicts"])
    rows.equal("what that leaves", "the files of 1 settled candidate, and 0 conflicts of 2-2-1" in search.left(), True)


def check_audit(rows: Rows) -> None:
    folder = Folder()
    folder.write("1-1-1.cnf", "x" * 1500000)
    folder.write("1-1-1.lrat", "x" * 2000000)
    for command in ("check", "degrade"):
        audit = begun([command], None)
        with open("/dev/null", "wb") as it:
            it.write(bytes(99000000))
        with open("proofs/1-1-1.lrat", "rb") as it:
            it.read()
        low, told, high = read_so_far(), audit.told(os.getpid()), read_so_far()
        rows.equal(f"{command}: what is read", len(told) and low - 0.1 <= float(told[0].split(" MB read")[0]) <= high + 0.1, True)
        rows.equal(f"{command}: what there is", told[1:], ["the folder proofs has 3.5"])
        rows.equal(f"{command}: nothing of an end", (audit.found_before(), audit.left(), audit.told(0)), ("", "", []))


def read_so_far() -> float:
    """The megabytes that this process has read."""
    with open("/proc/self/io") as it:
        return int(it.readline().split()[1]) / 1e6


def check_kinds(rows: Rows) -> None:
    has_line = [it for it in "synth bound check degrade ordered replay programs json unjson family trial".split() if progress_of([it], None)]
    rows.equal("commands with a line", has_line, "synth bound check degrade ordered".split())
    rows.equal("no command", (progress_of([], None), progress_of(["x"], None)), (None, None))
    ordered = begun(["ordered"], FOUR)
    rows.equal("ordered tells the time alone", (ordered.told(os.getpid()), ordered.found_before(), ordered.left()), ([], "", ""))
    for words, topology, wanted in MOST:
        search = begun(f"bound conflicts=9 collective={words}".split(), topology)
        rows.equal(words, isinstance(search, Search) and search.most, wanted)


class Screen(attend.Terminal):
    """A terminal of a width, in front or not, that keeps what is written to it."""

    def __init__(self, width: int, in_front: bool = True) -> None:
        super().__init__()
        self.width, self.in_front, self.has_lines = width, in_front, True
        self.written: list[str] = []

    def columns(self) -> int:
        return self.width

    def is_in_front(self) -> bool:
        return self.in_front

    def write(self, text: str) -> None:
        self.written.append(text)


def check_terminal(rows: Rows) -> None:
    parts = "aaaa", "bb", "cccccc"
    for width in range(1, 40):
        screen = Screen(width)
        screen.show("sccl: it", parts, "0:01")
        lines = ["sccl: it, " + "".join(f"{it}, " for it in parts[:count]) + "0:01" for count in (3, 2, 1, 0)]
        wanted = [f"{attend.CLEAR}{it}" for it in lines if len(it) < width][:1]
        rows.equal(f"the line at {width} columns", screen.written, wanted)
        screen.clear()
        screen.clear()
        rows.equal(f"cleared once at {width} columns", screen.written, wanted + [attend.CLEAR] * bool(wanted))
    rows.equal("times", [attend.lasted(it) for it in (1, 59, 60, 61, 3661)], ["0:01", "0:59", "1:00", "1:01", "61:01"])
    screen = Screen(80, False)
    screen.show("sccl: it", parts, "0:01")
    screen.clear()
    rows.equal("in the background", screen.written, [])
    screen.say("a line")
    rows.equal("a line that stays", screen.written, ["sccl: a line\n"])


def main() -> None:
    rows = Rows()
    for check in (check_search, check_earlier, check_audit, check_kinds, check_terminal):
        with tempfile.TemporaryDirectory() as folder:
            os.chdir(folder)
            check(rows)
            os.chdir("/")
    sys.exit(bool(rows.differ))


main()
