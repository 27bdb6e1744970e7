"""A point of a report, as ./sccl tells it: its verdict, its collective, and what each node has to do."""
from __future__ import annotations

import json
import os
import re
import subprocess
import sys
import tempfile
from typing import Any, Dict, List, Match, Sequence, Tuple

from .blocks import NoExport, Operation
from .layouts import BUFFERS, ROOTED

sys.path.insert(0, os.path.dirname(os.path.dirname(os.path.abspath(__file__))))
from refusals import CODES, PLACES, STATUSES

BAD_WORDS, BAD_REPORT, UNKNOWN_POINT, NOT_BUILT = 2, 7, 9, 70
OF_PART = {"reduce": "reducescatter", "gather": "allgather"}
REFUSED = re.compile(r"refused (\d+) (\d+) (\S+)\n")
# What a verdict says; the words are those behind its first.
VERDICTS = {
    "nolink": "in step {3} {1} sends chunk {0} to {2}, and there is no such link",
    "overfull": "in step {0} {2} chunks cross group {1}, which are more than can",
    "clash": "in step {2} two nodes send chunk {0} to {1}",
    "lacking": "{1} lacks chunk {0} at the end",
    "missing": "what {1} has of chunk {0} at the end lacks the contribution of {2}",
    "twice": "what {1} has of chunk {0} at the end has the contribution of {2} more than once",
}


class Sccl:
    """The program, and a report that it reads."""

    def __init__(self, program: str, report: bytes) -> None:
        self.program, self.report = program, report
        if report.lstrip().startswith(b"{"):
            self.report = self.said("unjson", "what=report")

    def said(self, *words: str) -> bytes:
        """What the program writes; a refusal is told in one sentence."""
        status, written = self.run(words)
        if status:
            raise NoExport(refusal(status, REFUSED.fullmatch(written.decode("latin-1")), words))
        return written

    def run(self, words: Sequence[str]) -> Tuple[int, bytes]:
        """Its status and what it writes. What the launcher says of a build is passed on as it comes."""
        with tempfile.TemporaryFile() as given, tempfile.TemporaryFile() as written:
            given.write(self.report)
            given.seek(0)
            try:
                ran = subprocess.Popen([self.program, *words], stdin=given, stdout=written, stderr=subprocess.PIPE)
            except OSError as why:
                raise NoExport(f"{self.program} can't be run: {why.strerror}") from None
            with ran:
                for line in ran.stderr or ():
                    sys.stderr.buffer.write(line)
                    sys.stderr.flush()
            written.seek(0)
            return ran.returncode, written.read()


def refusal(status: int, found: Match[str] | None, words: Sequence[str]) -> str:
    """A status, and the code and the place of its line where there is one, as a sentence."""
    if status == NOT_BUILT:
        return "sccl is not built, and could not be"
    if not found or status not in CODES:
        return f"sccl {' '.join(words)} ended with status {status}, {STATUSES.get(status, 'which no run of it has')}"
    code, place, what = int(found[2]), found[3], PLACES[status][0]
    if (status, code) == (BAD_WORDS, UNKNOWN_POINT):
        return f"the report has no {words[-1].replace('=', ' ')}"
    blamed = f"{what} {place}: " if what and place != "0" else ""
    return f"{'the report is refused' if status == BAD_REPORT else STATUSES[status]}: {blamed}{CODES[status][code]}".replace("`", "")


class Schedule:
    """A point's schedule, of which the program says that it holds."""

    def __init__(self, sccl: Sccl, number: int) -> None:
        check_verdict(sccl.said("replay", f"point={number}"), number)
        self.report = json.loads(sccl.said("json", "what=report"))
        self.point, part = points_of(self.report)[number - 1]
        self.nodes: List[str] = self.report["topology"]["nodes"]
        self.collective: str = OF_PART.get(part, self.report["words"]["collective"])
        if self.collective not in BUFFERS:
            raise NoExport(f"{self.collective}: a runtime takes an algorithm by its collective's name, and RCCL has none for one's own")
        self.chunks: int = self.point["c"]
        root = self.report["words"].get("root", self.nodes[0])
        self.root = self.nodes.index(root) if self.collective in ROOTED else None
        rank = {name: it for it, name in enumerate(self.nodes)}
        programs = json.loads(sccl.said("json", "what=programs", f"point={number}"))["programs"]
        self.programs = [(it["node"], [operation(op, rank) for op in it["ops"]]) for it in programs]

    def name(self) -> str:
        return "_".join(["sccl", self.collective, *(str(self.point[it]) for it in "src")])


def points_of(report: Dict[str, Any]) -> List[Tuple[Dict[str, Any], str]]:
    """The points in the order in which they are numbered, each with its part."""
    return [*((it, part["part"]) for part in report["frontiers"] for it in part["points"]), *((it, "joined") for it in report["joined"])]


def operation(found: List[Any], rank: Dict[str, int]) -> Operation:
    """An operation of JSON: [STEP,"send",CHUNK,TO] or [STEP,"take",CHUNK,FROM,MODE]."""
    when, kind, chunk, other, *mode = found
    return Operation(when, kind == "send", chunk, rank[other], mode == ["add"])


def check_verdict(replay: bytes, number: int) -> None:
    """Nothing, where the replay's verdict is that the schedule holds."""
    verdict = replay.decode("ascii").split("\n")[-3]
    if verdict != "holds":
        word, *of_it = verdict.split(" ")
        raise NoExport(f"point {number} does not do what its collective demands: {VERDICTS[word].format(*of_it)} ({verdict})")
