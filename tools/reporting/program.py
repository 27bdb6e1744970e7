"""Runs the program for the scripts beside it: through the launcher `sccl` of the repository, or another path that is given."""
from __future__ import annotations

import os
import re
import subprocess
from typing import List, Optional, Tuple

from refusals import CODES, LINE, STATUSES, blamed

ROOT = os.path.dirname(os.path.dirname(os.path.dirname(os.path.abspath(__file__))))


class Failed(Exception):
    """The program refuses, or ends otherwise, for the reason that is said."""


class Program:
    def __init__(self, path: Optional[str] = None) -> None:
        self.path = os.path.abspath(path) if path else os.path.join(ROOT, "sccl")

    def run(self, words: List[str], given: bytes = b"", folder: Optional[str] = None, seconds: Optional[float] = None) -> Tuple[int, bytes]:
        """The status and the output of a run in a folder. What takes longer than so many seconds raises subprocess.TimeoutExpired."""
        try:
            ran = subprocess.run([self.path, *words], input=given, capture_output=True, cwd=folder, timeout=seconds)
        except OSError as why:
            raise Failed(f"the program can't be run: {why}") from None
        if ran.returncode not in (0, *STATUSES):
            told = ran.stderr.decode("utf-8", "replace").strip().split("\n")[-1]
            raise Failed(told or f"the program ended with {ran.returncode}")
        return ran.returncode, ran.stdout

    def wanted(self, words: List[str], given: bytes = b"", folder: Optional[str] = None, seconds: Optional[float] = None) -> bytes:
        """The output of a run that has to do what is asked."""
        status, output = self.run(words, given, folder, seconds)
        if status:
            raise Failed(explained(status, words, output))
        return output


def explained(status: int, words: List[str], output: bytes) -> str:
    """What the program refuses, with the place."""
    found = LINE.fullmatch(output.decode("latin-1"))
    why = ""
    if found and int(found[1]) == status in CODES:
        why = f": {blamed(status, found[3], words)}{CODES[status][int(found[2])]}"
    return re.sub("`", "", f"{words[0]}: {STATUSES[status]}{why}")
