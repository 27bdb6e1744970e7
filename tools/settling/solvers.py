"""Runs SAT solvers on formulas, and leaves what they find beside: a refutation as LRAT, or a model."""
from __future__ import annotations

import os
import shlex
import shutil
import subprocess
import tempfile
import threading
import time
from dataclasses import dataclass
from typing import Dict, List, Optional, Set, Tuple

HERE = os.path.dirname(os.path.abspath(__file__))
# How solvers that are known are told to print a model and to write a proof as text.
KNOWN = {
    "cadical": "-q --no-binary {formula} {proof}",
    "kissat": "-q --no-binary {formula} {proof}",
    "glucose": "-model -certified -certified-output={proof} {formula}",
}
SOLVED, REFUTED = 10, 20
SAYS: Dict[Optional[int], str] = {SOLVED: "solved", REFUTED: "refuted"}


class Unfit(Exception):
    """There is no such solver, or it does not do what it should, for the reason that is said."""


@dataclass
class Answer:
    """What a solver says of a formula: `refuted`, `solved`, or `unknown` and why; and its seconds, and those of making LRAT."""

    says: str
    why: str = ""
    seconds: float = 0.0
    converting: float = 0.0


class Solver:
    """A solver and its running processes. It may be used by several threads at once."""

    def __init__(self, told: Optional[str]) -> None:
        self.words = command(told)
        self.running: Set["subprocess.Popen[bytes]"] = set()
        self.lock, self.is_stopped = threading.Lock(), False
        self.converter = Converter()

    def settle(self, formula: str, seconds: float) -> Answer:
        """Leaves a refutation or a model of the formula beside it, under its name with `.lrat` or `.model` at its end."""
        stem = formula[: -len(".cnf")]
        with tempfile.TemporaryDirectory(dir=os.path.dirname(formula) or ".", prefix="settling-") as room:
            proof, lrat, model = (os.path.join(room, it) for it in ("proof", "lrat", "model"))
            start = time.monotonic()
            status, output = self.run([it.format(formula=formula, proof=proof) for it in self.words], seconds)
            answer = Answer(SAYS.get(status, "unknown"), "", time.monotonic() - start)
            if answer.says == "solved":
                with open(model, "wb") as file:
                    file.write(b"".join(it + b"\n" for it in output.split(b"\n") if it.startswith(b"v ")))
                os.replace(model, f"{stem}.model")
            elif answer.says == "refuted":
                try:
                    self.converter.convert(formula, proof, lrat)
                except Unfit as why:
                    return Answer("unknown", f"the solver refutes it, but {why}", answer.seconds)
                os.replace(lrat, f"{stem}.lrat")
                answer.converting = time.monotonic() - start - answer.seconds
            elif status is None:
                answer.why = f"the solver found nothing in {seconds:g} s"
            else:
                answer.why = f"the solver ended with {status}"
        return answer

    def run(self, words: List[str], seconds: float) -> Tuple[Optional[int], bytes]:
        """The status and the output; no status where it took too long."""
        with self.lock:
            if self.is_stopped:
                return None, b""
            started = subprocess.Popen(words, stdin=subprocess.DEVNULL, stdout=subprocess.PIPE, stderr=subprocess.DEVNULL)
            self.running.add(started)
        try:
            output, _ = started.communicate(timeout=seconds)
            return started.returncode, output
        except subprocess.TimeoutExpired:
            return None, b""
        finally:
            started.kill()
            started.wait()
            with self.lock:
                self.running.discard(started)

    def stop(self) -> None:
        """Ends the processes that run, and starts no other."""
        with self.lock:
            self.is_stopped = True
            for it in self.running:
                it.kill()


def command(told: Optional[str]) -> List[str]:
    """The words of the solver, in which {formula} and {proof} stand for the files."""
    words = shlex.split(told) if told else [next((it for it in KNOWN if shutil.which(it)), "cadical")]
    if not words or not shutil.which(words[0]):
        raise Unfit(f"there is no solver {words[0] if words else ''}: install cadical, or name another by --solver".replace(" :", ":"))
    if any("{formula}" in it for it in words):
        return words
    name = os.path.basename(words[0])
    if name not in KNOWN:
        raise Unfit(f"say where the files of {name} go: --solver '{name} .. {{formula}} {{proof}}'")
    more = ["--lrat"] if name == "cadical" and has_lrat(words[0]) else []
    return [*words, *more, *KNOWN[name].split(" ")]


def has_lrat(cadical: str) -> bool:
    """Whether this cadical writes LRAT by itself, as it does from 1.7 on."""
    ran = subprocess.run([cadical, "--help"], stdin=subprocess.DEVNULL, capture_output=True)
    return b"--lrat" in ran.stdout


class Converter:
    """Makes LRAT of what a solver wrote, by the program beside this file, which is compiled when it is first needed."""

    def __init__(self) -> None:
        self.room: Optional[tempfile.TemporaryDirectory[str]] = None
        self.lock, self.path = threading.Lock(), ""

    def convert(self, formula: str, proof: str, lrat: str) -> None:
        kind = kind_of(proof)
        if kind == "lrat":
            os.replace(proof, lrat)
        elif self.compiled():
            with open(lrat, "wb") as file:
                ran = subprocess.run([self.path, formula, proof], stdout=file, stderr=subprocess.PIPE)
            if ran.returncode:
                raise Unfit(ran.stderr.decode("utf-8", "replace").strip() or f"making LRAT of its proof ended with {ran.returncode}")
        elif shutil.which("drat-trim"):
            subprocess.run(["drat-trim", formula, proof, "-L", lrat, "-t", "1000000"], stdout=subprocess.DEVNULL, stderr=subprocess.DEVNULL)
            if not os.path.exists(lrat) or not os.path.getsize(lrat):
                raise Unfit("drat-trim makes no LRAT of its proof")
        else:
            raise Unfit("its proof is DRAT, and neither a C compiler (cc) nor drat-trim is there to make LRAT of it")

    def compiled(self) -> bool:
        compiler = next((it for it in ("cc", "gcc", "clang") if shutil.which(it)), None)
        with self.lock:
            if not self.path and compiler:
                self.room = tempfile.TemporaryDirectory()
                path = os.path.join(self.room.name, "drat_to_lrat")
                ran = subprocess.run([compiler, "-O2", "-o", path, os.path.join(HERE, "drat_to_lrat.c")], capture_output=True)
                self.path = path if not ran.returncode else ""
        return bool(self.path)


def kind_of(proof: str) -> str:
    """Whether a proof is LRAT or DRAT, by its first line."""
    try:
        with open(proof, "rb") as file:
            first: List[bytes] = next((it.split() for it in file if it.strip() and not it.startswith(b"c")), [])
    except OSError:
        raise Unfit("it wrote no proof: name one that does, with {proof} in --solver") from None
    if not all(it == b"d" or it.lstrip(b"-").isdigit() for it in first):
        raise Unfit("its proof is binary: have it write text")
    return "lrat" if first.count(b"0") > 1 or first[1:2] == [b"d"] else "drat"
