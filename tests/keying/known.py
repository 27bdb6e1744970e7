"""Searches by keys whose answers are known, and searches over files of which it is known whether they stay."""
from __future__ import annotations

import os
import subprocess
import tempfile
from collections.abc import Iterator, Mapping
from typing import Callable, Dict, List, Tuple

import rows

# What a row is, what was found, and what is due.
Row = Tuple[str, object, object]
NOTHING = b""
# Searches that tell their cuts at all sets of nodes, as rows.BOUNDS.
OUT_FIRST = "topology 1\nnodes a b c\ngroup 2 a>b a>c\ngroup 2 b>a b>c\ngroup 2 c>a c>b\ngroup 1 b>a c>a\ngroup 1 a>b c>b\ngroup 1 a>c b>c\n"
IN_FIRST = "topology 1\nnodes a b c\ngroup 1 b>a c>a\ngroup 1 a>b c>b\ngroup 1 a>c b>c\ngroup 2 a>b a>c\ngroup 2 b>a b>c\ngroup 2 c>a c>b\n"
TWO_BOXES = "topology 1\nnodes a b c d e f\n" + "".join(
    f"group 1 {one}>{other}\n" for box in ("abc", "def") for one in box for other in box if one != other
) + "group 1 c>d\ngroup 1 d>c\n"
BOUNDS_AT_ALL = [
    rows.BOUNDS[0],
    # a switch, in whatever order its groups stand
    (OUT_FIRST, "allgather 1 1 1", "", "floor 2 1 a|frontier whole|point 1 2 1 optimal|cut 1 1 1 a|end"),
    (IN_FIRST, "allgather 1 1 1", "", "floor 2 1 a|frontier whole|point 1 2 1 optimal|cut 1 1 1 a|end"),
    # one group that covers what others cover too, between them
    (
        "topology 1\nnodes a b c d\ngroup 2 a>d\ngroup 2 a>d b>d c>d\ngroup 2 c>d\n", "gather 1 1 1", " root=d",
        "floor 3 2 d|frontier whole|point 1 2 1 optimal|cut 1 1 1 d|end",
    ),
    # three nodes of one box, which no listed set is
    (
        TWO_BOXES, "allgather 4 1 2", "",
        "floor 3 1 a b c|frontier whole|cut 1 1 2 a|cut 1 1 1 a|cut 1 2 2 a|cut 1 3 2 a|cut 1 2 1 a|cut 1 4 2 a|cut 1 5 2 a b c|"
        "refuted 1 3 1|refuted 1 4 1|refuted 1 5 1|end",
    ),
    # a chunk that nobody holds, and nothing that has to move
    (
        "topology 2\nnodes a b c\ngroup 1 a>b\ngroup 1 b>c\ncustom 1\nbefore 0\nafter 0 c\n", "custom 0 2 1", "",
        "floor 1 0 a b c|frontier whole|cut 1 1 1 a b c|cut 2 2 1 a b c|end",
    ),
    (rows.GIVEN + "custom 1\nbefore 0 a\nafter 0 a\n", "custom 0 1 1", "", "floor 0 1|frontier whole|point 1 1 1 optimal|end"),
    # a reduction over the links turned round
    (rows.BACK_OF_2, "reduce 0 1 1", " root=a", "floor 1 1 b|frontier whole|point 1 1 1 optimal|end"),
    (rows.BACK_OF_2.replace("b>a", "a>b"), "reduce 0 1 1", " root=a", "floor 1 0 b|frontier whole|cut 1 1 1 b|end"),
]

# Searches by the keys of which the words tell: the words, the topology, and what stands behind it where there is just one such text.
# What is cut is refuted, and needs no conflict.
SEARCHES_BY_KEYS = [
    ("broadcast 0 1 1 root=n0 cuts=yes ordered=yes", "topology 1\nnodes n0 n1\ngroup 1 n0>n1\ngroup 1 n1>n0\n", rows.KEYED.split("n1>n0\n")[1]),
    ("broadcast 0 3 2 root=n0 ordered=yes", rows.LINE_OF_3, rows.TWO_POINTS.split("n2>n1\n")[1]),
    ("broadcast 0 3 2 root=n0 cuts=yes ordered=yes", rows.LINE_OF_3, rows.TWO_POINTS.split("n2>n1\n")[1]),
    ("allreduce 0 1 1 cuts=yes", "topology 1\nnodes n0 n1\ngroup 1 n0>n1\ngroup 1 n1>n0\n", rows.ALLREDUCE.split("group 1 n1>n0\n")[1]),
    ("broadcast 0 2 1 root=a cuts=yes", rows.BACK_OF_2, "frontier whole\nrefuted 1 1 1\nrefuted 2 2 1\nend\n"),
    ("reduce 0 1 1 root=a cuts=yes", rows.BACK_OF_2.replace("b>a", "a>b"), "frontier whole\nrefuted 1 1 1\nend\n"),
    ("custom 0 2 1 cuts=yes ordered=yes", "topology 2\nnodes a b c\ngroup 1 a>b\ngroup 1 b>c\ncustom 1\nbefore 0\nafter 0 c\n",
     "frontier whole\nrefuted 1 1 1\nrefuted 2 2 1\nend\n"),
]
# Searches of which each refuted candidate is cut, so that a check asks for no file.
ALL_CUT = SEARCHES_BY_KEYS[4:]

# The relay, its formula in one step, and a refutation of that which another solver may have written.
RELAY = ["broadcast", "0", "2", "1", "root=n0"]
FORMULA = "".join(f"{it}\n" for it in ["p cnf 18 33", *(f"{it} 0" for it in (
    "1|-3|-5|-1 2|-3 4|-5 6|2|4|6|-7 1|-7 -3|-7 4|-8 3|-8 -1|-8 2|-9 3|-9 -5|-9 6|-10 5|-10 -3|-10 4|1 -2 8|3 -4 7 10"
    "|5 -6 9|-7 -10|-7 11|-12|-8 13|-14|-9 15|-16|-10 17|-18"
).split("|"))]).encode()
PROOF = b"34 0 2 3 9 16 24 0\n"
OTHER_PROOF = b"c another solver's\n" + PROOF
# What stands under its names before, and whether the refutation stays.
KEPT: List[Tuple[str, Dict[str, bytes], bool]] = [
    ("a refutation", {"cnf": FORMULA, "lrat": OTHER_PROOF}, True),
    ("a refutation and a log", {"cnf": FORMULA, "lrat": OTHER_PROOF, "partial": PROOF}, True),
    ("a refutation cut short", {"cnf": FORMULA, "lrat": OTHER_PROOF[:-8]}, False),
    ("a hint that is another", {"cnf": FORMULA, "lrat": OTHER_PROOF.replace(b" 9 ", b" 8 ")}, False),
    ("a formula with a clause less", {"cnf": FORMULA.replace(b"18 33", b"18 32").replace(b"-18 0\n", NOTHING), "lrat": OTHER_PROOF}, False),
    ("a formula with a byte more", {"cnf": FORMULA + b"\n", "lrat": OTHER_PROOF}, False),
    ("no formula", {"lrat": OTHER_PROOF}, False),
    ("no proof", {"cnf": FORMULA}, False),
    ("an empty proof", {"cnf": FORMULA, "lrat": NOTHING}, False),
    ("a comment alone", {"cnf": FORMULA, "lrat": b"c another solver's\n"}, False),
    ("no file", {}, False),
]
# What is no file, under the name of one.
NO_FILES: List[Tuple[str, Callable[[str], None]]] = [("a folder", os.mkdir), ("a named pipe", os.mkfifo), ("a link", lambda path: os.symlink("/dev/null", path))]


def asked(command: str, collective: str, k: str, steps: str, chunks: str, *more: str) -> list[str]:
    return [command, f"collective={collective}", f"k={k}", f"steps={steps}", f"chunks={chunks}", "conflicts=1000", *more]


def known(program: str) -> Iterator[Row]:
    """What each row is, what was found, and what is due."""
    yield from bounds(program)
    yield from searches(program)
    yield from keeps(program)
    yield from no_files(program)


def run(program: str, words: list[str], given: bytes, folder: str) -> tuple[int, bytes]:
    ran = subprocess.run([program, *words], input=given, capture_output=True, cwd=folder, timeout=60)
    return ran.returncode, ran.stdout + ran.stderr


def bounds(program: str) -> Iterator[Row]:
    for topology, words, root, told in BOUNDS_AT_ALL:
        with tempfile.TemporaryDirectory() as folder:
            status, wrote = run(program, [*asked("bound", *words.split(), *root.split()), "sets=all"], topology.encode(), folder)
        found = [it for it in wrote.decode().split("\n")[:-1] if it.split(" ")[0] not in ("rounds", "send")]
        yield f"{words} at all sets on {topology!r}", (status, found), (0, ["bound 1", " ".join(asked("synth", *words.split())) + root, *told.split("|")])


def searches(program: str) -> Iterator[Row]:
    """Those by keys of which the words tell; the ones that cut all leave no file, and are verified without any."""
    for row in SEARCHES_BY_KEYS:
        given, topology, told = row
        words = asked("synth", *given.split())
        due = f"sccl {topology[9]}\n{' '.join(words)}\n{topology}{told}".encode()
        with tempfile.TemporaryDirectory() as folder:
            yield f"{words} on {topology!r}", run(program, words, topology.encode(), folder), (0, due)
            yield f"{words} on {topology!r}, checked", run(program, ["check"], due, folder), (0, b"verified\n")
            if row in ALL_CUT:
                yield f"the files of {words} on {topology!r}", files_in(folder), {}


def keeps(program: str) -> Iterator[Row]:
    """The relay over files of its own: a refutation that begins with a comment stays, what is none is searched again."""
    keys: list[list[str]] = [[], ["cuts=yes"]]
    for what, files, is_kept in KEPT:
        for more in keys:
            with tempfile.TemporaryDirectory() as folder:
                put(folder, {**{f"1-1-1.{it}": text for it, text in files.items()}, "2-2-1.lrat": b"c of a point\n", "2-2-2.lrat": OTHER_PROOF})
                status, text = run(program, [*asked("synth", *RELAY), *more, "kept=yes"], rows.LINE_OF_3.encode(), folder)
                found = files_in(folder)
                yield f"kept, {more}: {what}", (status, text.decode()), (0, rows.RELAY.replace("root=n0", " ".join(["root=n0", *more])))
                seen = {it: found.get(it) for it in ("1-1-1.cnf", "1-1-1.lrat", "1-1-1.partial", "2-2-1.lrat", "2-2-2.lrat")}
                due = FORMULA, OTHER_PROOF if is_kept else PROOF, NOTHING, NOTHING, OTHER_PROOF
                yield f"kept, {more}: {what}: the files", tuple(seen.values()), due


def no_files(program: str) -> Iterator[Row]:
    """What is no file under the name of one that is read: the shelf fails."""
    for what, make in NO_FILES:
        for name in ("1-1-1.cnf", "1-1-1.lrat"):
            with tempfile.TemporaryDirectory() as folder:
                put(folder, {it: text for it, text in (("1-1-1.cnf", FORMULA), ("1-1-1.lrat", PROOF)) if it != name})
                make(os.path.join(folder, "proofs", name))
                found = run(program, [*asked("synth", *RELAY), "kept=yes"], rows.LINE_OF_3.encode(), folder)
                yield f"kept, with {what} in the place of {name}", found, (6, NOTHING)


def put(folder: str, files: Mapping[str, bytes]) -> None:
    os.mkdir(os.path.join(folder, "proofs"))
    for name, text in files.items():
        with open(os.path.join(folder, "proofs", name), "wb") as it:
            it.write(text)


def files_in(folder: str) -> dict[str, bytes]:
    proofs, found = os.path.join(folder, "proofs"), {}
    for name in os.listdir(proofs) if os.path.isdir(proofs) else []:
        with open(os.path.join(proofs, name), "rb") as it:
            found[name] = it.read()
    return found
