"""What tests of the scripts in tools/ have in common: how a script is run, and how rows are counted."""
from __future__ import annotations

import os
import subprocess
import sys
from typing import List, Optional, Tuple

ROOT = os.path.dirname(os.path.dirname(os.path.abspath(__file__)))
Ran = Tuple[int, bytes, bytes]


class Count:
    def __init__(self) -> None:
        self.passed = self.failed = 0

    def equal(self, what: str, found: object, wanted: object) -> None:
        self.passed, self.failed = self.passed + (found == wanted), self.failed + (found != wanted)
        if found != wanted:
            print(f"FAILED: {what}: {str(found)[:300]} and not {str(wanted)[:300]}", flush=True)

    def is_true(self, what: str, found: object) -> None:
        self.equal(what, bool(found), True)

    def end(self) -> None:
        print(f"{self.passed} passed, {self.failed} failed")
        sys.exit(bool(self.failed))


def script(name: str, *words: str, given: bytes = b"", folder: Optional[str] = None) -> Ran:
    """The status, the output and the errors of a script of tools/."""
    command = [os.path.join(ROOT, "tools", name), *words]
    ran = subprocess.run(command, input=given, capture_output=True, timeout=120, cwd=folder)
    return ran.returncode, ran.stdout, ran.stderr


def refuses(count: Count, what: str, ran: Ran, name: str, *told: str) -> None:
    """A refusal: status 1, no output, and one sentence that begins with the script's name and has what is told."""
    status, output, errors = ran
    lines = errors.decode().splitlines()
    shape = status, output, len(lines), lines[-1:] and lines[-1].startswith(f"{name}: ")
    count.equal(f"{what}: is refused in one sentence", shape, (1, b"", 1, True))
    for it in told:
        count.is_true(f"{what}: it tells `{it}`: {lines}", lines and it in lines[-1])


def has_help(count: Count, name: str) -> None:
    status, output, errors = script(name, "--help")
    count.equal(f"{name} --help: is a page", (status, errors, b"usage: tools/" + name.encode() in output, output.count(b"\n") > 12), (0, b"", True, True))


def builds() -> List[str]:
    """The program that `rt ci` left, or none."""
    path = os.environ.get("SCCL", os.path.join(ROOT, "crates/sccl/out/sccl"))
    return [path] if os.access(path, os.X_OK) else []
