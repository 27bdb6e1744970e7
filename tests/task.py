"""Tasks for the program that are run where something fails, and what is owed then."""
from __future__ import annotations

import os
import stat
import subprocess
import tempfile
import time
from collections.abc import Sequence
from typing import Any


def files_of(folder: str) -> dict[str, bytes]:
    """The bytes of the plain files of `proofs`, by name."""
    found, proofs = {}, os.path.join(folder, "proofs")
    for name in os.listdir(proofs) if os.path.isdir(proofs) else []:
        path = os.path.join(proofs, name)
        if stat.S_ISREG(os.lstat(path).st_mode):
            with open(path, "rb") as it:
                found[name] = it.read()
    return found


class Task:
    """Words, an input and the files beside it, and what a run gives where nothing fails."""

    def __init__(self, program: str, words: list[str], given: bytes = b"", files: dict[str, bytes] | None = None) -> None:
        self.words, self.given, self.files, self.name = [program, *words], given, files or {}, words[0]
        with tempfile.TemporaryDirectory() as folder:
            start = time.perf_counter()
            ran = self.run(folder)
            self.seconds = time.perf_counter() - start
            self.status, self.output, self.left = ran.returncode, ran.stdout, files_of(folder)

    def prepare(self, folder: str) -> None:
        """Puts the files that the task reads into the folder."""
        for name, it in self.files.items():
            path = os.path.join(folder, "proofs", name)
            os.makedirs(os.path.dirname(path), exist_ok=True)
            with open(path, "wb") as file:
                file.write(it)

    def run(self, folder: str, before: Sequence[str] = (), **how: Any) -> subprocess.CompletedProcess[bytes]:
        self.prepare(folder)
        return self.run_alone(folder, before, **how)

    def run_alone(self, folder: str, before: Sequence[str] = (), **how: Any) -> subprocess.CompletedProcess[bytes]:
        """Runs over what stands in the folder."""
        if "stdin" not in how:
            how["input"] = self.given
        how = {"stdout": subprocess.PIPE, "stderr": subprocess.PIPE, "timeout": 120, "cwd": folder, **how}
        return subprocess.run([*before, *self.words], **how)


class Count:
    """How many facts held and failed."""

    def __init__(self) -> None:
        self.passed = self.failed = 0

    def holds(self, what: str, test: object, found: object) -> None:
        self.passed, self.failed = self.passed + bool(test), self.failed + (not test)
        if not test:
            print(f"FAILED: {what}: {str(found)[:400]}", flush=True)

    def ends(self, what: str, task: Task, ran: subprocess.CompletedProcess[bytes], folder: str, *statuses: int) -> None:
        """The run ended well, or with one of these statuses and wrote nothing; and its files are fronts of what they should be."""
        well = (ran.returncode, ran.stdout or b"") == (task.status, task.output)
        silent = ran.returncode in statuses and not ran.stdout
        self.holds(f"{task.name}: {what}", (well or silent) and not ran.stderr, (ran.returncode, ran.stdout, ran.stderr))
        self.fronts(what, task, folder)

    def fronts(self, what: str, task: Task, folder: str) -> None:
        """Each file is a front of that of a whole run."""
        wrong = [name for name, it in files_of(folder).items() if not task.left.get(name, b"").startswith(it)]
        self.holds(f"{task.name}: {what}: the files", not wrong, wrong)
