"""Searches one after another, each in a folder of its own, which begins with the proofs of those before."""
from __future__ import annotations

import os
import re
import shutil
from typing import List, Optional

from reporting.program import Failed, Program, explained

FOLDER, TOO_LARGE = "proofs", 9
PROOF = re.compile(r"((?:reduce-|gather-)?[0-9]+-[0-9]+-[0-9]+)\.lrat")


class Searches:
    """The folder that has the proofs so far, and those in which searches run below a room of their own."""

    def __init__(self, program: Program, topology: bytes, room: str) -> None:
        self.program, self.topology, self.room = program, topology, room
        self.last, self.kept, self.number = FOLDER, FOLDER, 0

    def search(self, words: List[str], seconds: float) -> Optional[bytes]:
        """The report of a search, or None where that is too large. Where it takes too long, or is interrupted, nothing of it counts."""
        self.number += 1
        place = os.path.join(self.room, str(self.number))
        os.makedirs(os.path.join(place, FOLDER))
        copy_proofs(self.last, os.path.join(place, FOLDER))
        asked = ["synth", *words, "cuts=yes", "kept=yes"]
        status, report = self.program.run(asked, self.topology, place, seconds)
        if status == TOO_LARGE:
            return None
        if status:
            raise Failed(explained(status, asked, report))
        self.last = os.path.join(place, FOLDER)
        return report

    def keep(self) -> None:
        """Has the files of the last search count in the end."""
        self.kept = self.last

    def leave_files(self) -> None:
        """Puts the files that count into the folder `proofs`."""
        os.makedirs(FOLDER, exist_ok=True)
        for it in os.listdir(self.kept) if self.kept != FOLDER else []:
            shutil.move(os.path.join(self.kept, it), os.path.join(FOLDER, it))


def copy_proofs(old: str, new: str) -> None:
    """Copies each formula that has a proof, and the proof."""
    for it in os.listdir(old) if os.path.isdir(old) else []:
        found = PROOF.fullmatch(it)
        if found and os.path.getsize(os.path.join(old, it)):
            for ending in ("cnf", "lrat"):
                path = os.path.join(old, f"{found[1]}.{ending}")
                if os.path.isfile(path):
                    shutil.copyfile(path, os.path.join(new, os.path.basename(path)))
