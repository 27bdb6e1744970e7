"""Holds what is said of refusals to rows: the line that is blamed, its mark, and what is wrong. Prints what differs."""
from __future__ import annotations

import os
import re
import sys
from collections.abc import Iterator

ROOT = os.path.dirname(os.path.dirname(os.path.abspath(__file__)))
sys.path.insert(0, os.path.join(ROOT, "tools"))
from blame import RULES, shown_line
from refusals import explanation
from words import COMMANDS, VALUES, what_is_read

NODES = "topology 1\nnodes a b c\n"
PATTERN = "topology 2\nnodes a b c\ngroup 1 a>b\ncustom 1\n"
REPORT = ("sccl 1\nsynth collective=broadcast k=0 steps=1 chunks=1 conflicts=9 root=a\ntopology 1\nnodes a b\ngroup 2 a>b\n"
          "frontier whole\npoint 1 1 1 optimal\nrounds 1\nsend 0 a b 1\nend\n")
CRLF = "the line ends with a carriage return, as lines of Windows do (CRLF)"
NO_NAME = "is no name: 1 to 16 of a to z, 0 to 9 and _"
SYNTH = "synth collective=broadcast k=1"

LINE_2 = ("due is synth collective=WORD k=N steps=N chunks=N conflicts=N, root=NAME where the collective takes a root, and then cuts=yes and "
          "ordered=yes where the search was asked so")

# The text, the code and the line that is blamed, what is said, and where the mark begins and how long it is (in the line).
TOPOLOGIES = [
    ("topology 3\n", 1, 1, "due is topology 1 or topology 2", 0, 10),
    ("topology 1\r\n", 1, 1, CRLF, 10, 1),
    ("\xef\xbb\xbftopology 1\n", 1, 1, "the text begins with a byte order mark", 0, 3),
    ("", 1, 1, "the text is empty", None, 0),
    ("topology 1", 2, 1, "the last line lacks its line feed", 10, 1),
    ("topology 1\n", 11, 2, "the text ends with line 1", None, 0),
    ("topology 1\nnodes\n", 11, 2, "no name follows", 0, 5),
    ("topology 1\n\n", 2, 2, "the line is blank", 0, 1),
    ("topology 1\ngroup 1 a>b\n", 2, 2, "due is nodes and the names", 0, 11),
    ("topology 1\nnodes a B\n", 3, 2, f"B {NO_NAME}", 8, 1),
    ("topology 1\nnodes a bcdefghijklmnopqr c\n", 3, 2, f"bcdefghijklmnopqr {NO_NAME}", 8, 17),
    ("topology 1\nnodes a b\r\n", 3, 2, CRLF, 9, 1),
    ("topology 1\nnodes a b a\n", 4, 2, "", 10, 1),
    ("topology 1\nnodes " + " ".join(f"n{it}" for it in range(17)) + "\n", 9, 2, "", 60, 3),
    (NODES + "group 1 a>d b>a\n", 5, 3, "d is none of the nodes a b c", 10, 1),
    (NODES + "group 1 a>b d>a\n", 5, 3, "d is none of the nodes a b c", 12, 1),
    (NODES + "group 1 a>\n", 5, 3, "nothing is none of the nodes a b c", 10, 1),
    (NODES + "group 1 a>b\r\n", 5, 3, CRLF, 11, 1),
    (NODES + "group 1 a>b b>b\n", 6, 3, "", 12, 3),
    (NODES + "group 1 a>b b>c a>b\n", 7, 3, "", 16, 3),
    (NODES + "group 17 a>b\n", 8, 3, "", 6, 2),
    (NODES + "group 0 a>b\n", 8, 3, "", 6, 1),
    (NODES + "group 16 a>b\n", 8, 3, "", None, 1),
    (NODES + "group x a>b\r\n", 8, 3, "", 6, 1),
    (NODES + "\ngroup 1 a>b\n", 2, 3, "the line is blank", 0, 1),
    (NODES + "\r\ngroup 1 a>b\n", 2, 3, "the line is blank", 0, 1),
    (NODES + "group 1 a>b \n", 2, 3, "a space at the end of the line", 11, 1),
    (NODES + " group 1 a>b\n", 2, 3, "a space at the beginning of the line", 0, 1),
    (NODES + "group 1  a>b\n", 2, 3, "two spaces, or more", 7, 2),
    (NODES + "group\t1 a>b\n", 2, 3, "a tab", 5, 1),
    (NODES + "group 1 \xe4>b\n", 2, 3, "a byte that is no printable ASCII", 8, 1),
    (NODES + "# links\n", 2, 3, "a comment, which the text may not have", 0, 7),
    (NODES + "// links\n", 2, 3, "a comment, which the text may not have", 0, 8),
    (NODES + "group 1 a>b # link\n", 2, 3, "a comment, which the text may not have", 11, 7),
    (NODES + "group 1 a>b\ngroup 1 b>c", 2, 4, "the last line lacks its line feed", 11, 1),
    (NODES + "group 1 a>b ", 2, 3, "the last line lacks its line feed", 12, 1),
    (NODES + "group 1 ab\n", 2, 3, "ab is no link: a name, > and a name", 8, 2),
    (NODES + "group 1\n", 2, 3, "due is group, a width and at least one link", 6, 1),
    (NODES + "groups 1 a>b\n", 2, 3, "due is group, a width and links", 0, 6),
    (PATTERN + "before 0 a\n", 2, 6, "the text ends with line 5", None, 0),
    (PATTERN.replace("custom 1", "custom 17"), 13, 4, "", 7, 2),
    (PATTERN.replace("custom 1", "custom"), 2, 4, "due is custom and a number", 0, 6),
    (PATTERN + "before 0 b a\n", 14, 5, "", 11, 1),
    (PATTERN + "before 0 b b\n", 14, 5, "", 11, 1),
    (PATTERN + "before 0 b e\n", 5, 5, "e is none of the nodes a b c", 11, 1),
    (PATTERN + "before\n", 2, 5, "due is before, the chunk's number and names", 0, 6),
    (NODES + "group 1 a>b\n", 10, 3, "", None, 1),
    (NODES + "group 17 a>b\n", 7, 3, "", None, 1),
]
REPORTS = [
    ("sccl 3\n", 1, 1, "due is sccl 1 or sccl 2", 0, 6),
    (REPORT.replace("k=0 ", ""), 1, 2, LINE_2, 0, 62),
    (REPORT.replace("root=a", "root=a ordered=yes cuts=yes"), 1, 2, LINE_2, 0, 87),
    (REPORT.replace("root=a", "root=a kept=yes"), 1, 2, LINE_2, 0, 75),
    (REPORT.replace("k=0", "k=9"), 3, 2, f"a rule is broken: {RULES['synth']}", 0, 66),
    (REPORT.replace("group 2 a>b", "group 2 a>c"), 1, 5, "c is none of the nodes a b", 10, 1),
    (REPORT.replace("group 2", "group 20"), 1, 5, "", 6, 2),
    (REPORT.replace("send 0 a b", "send 0 a c"), 1, 9, "c is none of the nodes a b", 9, 1),
    (REPORT.replace("send 0 a b", "send 0 c b"), 1, 9, "c is none of the nodes a b", 7, 1),
    (REPORT.replace("send 0", "send 00"), 1, 9, "due is a number, CHUNK, of at most 65535", 5, 2),
    (REPORT.replace("b 1\n", "b 65536\n"), 1, 9, "due is a number, STEP, of at most 65535", 11, 5),
    (REPORT.replace("b 1\n", "b\n"), 1, 9, "due is send CHUNK FROM TO STEP", 0, 10),
    (REPORT.replace("b 1\n", "b 2\n"), 3, 9, f"a rule is broken: {RULES['send']}", 0, 12),
    (REPORT.replace("optimal", "best"), 1, 7, "due is point S R C optimal or point S R C open or point S R C joined A", 0, 16),
    (REPORT.replace("point 1", "point x"), 1, 7, "due is a number, S, of at most 65535", 6, 1),
    (REPORT.replace("point 1 1 1", "point 1 1 2"), 3, 7, f"a rule is broken: {RULES['point']}", 0, 19),
    (REPORT.replace("rounds 1", "rounds 2"), 3, 8, f"a rule is broken: {RULES['rounds']}", 0, 8),
    (REPORT.replace("rounds 1", "round 1"), 1, 8, "no line of a report begins so", 0, 5),
    (REPORT.replace("whole", "half"), 1, 6, "due is frontier whole or frontier reduce or frontier gather", 0, 13),
    (REPORT.replace("\n", "\r\n"), 1, 1, CRLF, 6, 1),
    (REPORT.replace("end\n", ""), 2, 10, "the text ends with line 9", None, 0),
    (REPORT[:-1], 2, 10, "the last line lacks its line feed", 3, 1),
    (REPORT + "\n", 1, 11, "the line is blank", 0, 1),
]
# The same of JSON, with the line that is found.
JSON = [
    ('{\n"a":tru}\n', 1, 2, "line 2: Expecting value", 4, 1),
    ('{"a":"\xc3\xa4",b}\n', 1, 1, "line 1: Expecting property name enclosed in double quotes", 10, 1),
    ('\n{"a":"\xff"}\n', 1, 2, "line 2: a byte that is no UTF-8", 6, 1),
    ("[" * 100000, 1, 1, "", None, 0),
    ("1e999\n", 1, 0, "", None, 0),
    ("{}\n", 2, 0, "", None, 0),
    ("{}\n", 3, 1, "", None, 0),
]
# The words, the code and the number of the word that is blamed, what was read, and what is said of it.
WORDS = [
    ("", 1, 0, None, f"no command is given: the commands are {', '.join(COMMANDS)}; sccl help "),
    ("sinth", 2, 0, None, "word 0, sinth: it is no command: is synth meant?; sccl help is"),
    ("xyzzy", 2, 0, None, f"word 0, xyzzy: it is no command: the commands are {', '.join(COMMANDS)}; sccl help is"),
    (f"{SYNTH} step=3", 3, 3, None, "word 3, step=3: synth has the keys collective, k, steps, chunks, conflicts, root, cuts, ordered, kept "
     "(is steps meant?); "
     "sccl help synth is"),
    ("check ring.report", 3, 1, None, "word 1, ring.report: a word is KEY=VALUE, without spaces; sccl help check is"),
    ("check k=1", 3, 1, None, "word 1, k=1: check has no keys; sccl help check is"),
    ("synth k 1", 3, 1, None, "word 1, k: a word is KEY=VALUE, without spaces, as k=..; sccl help synth is"),
    ("json what=report point=1", 3, 2, None, "word 2, point=1: json takes point with what=programs alone; sccl help json is"),
    ("replay point=1 point=2", 4, 2, None, "word 2, point=2: its key stood before: point= is word 1 too (docs"),
    (SYNTH, 5, 3, None, "behind the last word: lacking: steps, chunks, conflicts; sccl help synth is"),
    ("json what=programs", 5, 2, None, "behind the last word: lacking: point; sccl help json is"),
    ("bound cuts=yes", 3, 1, None, "word 1, cuts=yes: bound has the keys collective, k, steps, chunks, conflicts, root, sets "
     "(is chunks meant?); sccl help bound is"),
    ("synth cuts=no", 6, 1, None, "word 1, cuts=no: it is no value of its key: cuts is yes; sccl help synth is"),
    ("bound sets=listed", 6, 1, None, "word 1, sets=listed: it is no value of its key: sets is all; sccl help bound is"),
    ("synth k=9", 6, 1, None, "word 1, k=9: it is no value of its key: k is 0 to 8; sccl help synth is"),
    ("synth collective=allgahter", 6, 1, None, f"its key: collective is {VALUES['collective']} (is allgather meant?); sccl help synth is"),
    ("family kind=rign size=4", 6, 1, None, f"its key: kind is {VALUES['kind']} (is ring meant?); sccl help family is"),
    ("family kind=ring size=2", 6, 2, None, f"its key: size is {VALUES['size']}; sccl help family is"),
    (f"{SYNTH} root=d", 8, 3, NODES, "a root that is no node of the topology: the nodes are a b c (docs"),
    (f"{SYNTH} root=d", 8, 3, None, "a root that is no node of the topology (docs"),
    ("replay point=2", 9, 1, REPORT, "a point that the report does not have: the report has 1 (docs"),
    ("replay point=2", 9, 1, REPORT.replace("sccl 1", "sccl 2") + "pattern\n", "the report has 1 (docs"),
    ("degrade group=1 width=0", 14, 1, REPORT, "a group that the topology does not have: the topology has 1, which are numbered from 0 (docs"),
    ("degrade group=0 width=2", 15, 2, REPORT, "a width that is not below the group's: that of group 0 is 2 (docs"),
]


def rows() -> Iterator[tuple[str, object, object]]:
    """Each row's name, what came, and what was due."""
    for status, table in ((3, TOPOLOGIES), (7, REPORTS), (12, JSON)):
        for text, code, line, what, column, length in table:
            yield f"{status} {code} {line} of {text!r}", seen(status, code, line, text), (what, column, length if column is not None else 0)
    for words, code, place, given, due in WORDS:
        said = explanation(2, words.split(), f"refused 2 {code} {place}\n".encode(), "above", None if given is None else given.encode())
        yield f"2 {code} {place} of {words}", due if due in said else said, due
    yield from drawings()
    yield from tables()


def seen(status: int, code: int, line: int, text: str) -> tuple[str, int | None, int]:
    """What is said, and the mark under the line, which has to be the line's own text."""
    data = text.encode("latin-1")
    what, drawn = shown_line(status, code, line, data, 200)
    shown, _, mark = drawn.partition("\n")
    if shown:
        plain = "".join(it if " " <= it <= "~" else "?" for it in text.split("\n")[line - 1].rstrip("\r"))
        assert shown == f"  {line} | {plain}".rstrip(), shown
    return what, mark.find("^") - len(f"  {line} | ") if mark else None, mark.count("^")


def drawings() -> Iterator[tuple[str, object, object]]:
    text = (NODES + "group 17 " + "a>b " * 30 + "\n").encode()
    yield "a long line", shown_line(3, 8, 3, text, 40)[1], "  3 | group 17 a>b a>b a>b a>b a>b a>b\n    |       ^^"
    drawn = shown_line(3, 2, 3, text, 40)[1].split("\n")
    yield "its end", (len(drawn[0]) < 40, len(drawn[1]) < 40, drawn[0][drawn[1].index("^") - 3:drawn[1].index("^")]), (True, True, "a>b")
    drawn = shown_line(3, 5, 3, (NODES + "group 1 a>" + "d" * 100 + "\n").encode(), 40)[1].split("\n")
    yield "a mark that is too long", ([len(it) for it in drawn], set(drawn[1])), ([39, 39], set(" |^"))
    said = explanation(3, ["synth"], b"refused 3 8 3\n", "above", (NODES + "group 17 a>b\n").encode())
    yield "the whole", said, ('status 3, the text is no topology: line 3: a width that is no number from 1 to 16 (docs/FORMATS.md, "Topology"); '
                              'the line "refused 3 8 3" stands above\n  3 | group 17 a>b\n    |       ^^')


def tables() -> Iterator[tuple[str, object, object]]:
    """The tables of tools/words.py are those of docs/FORMATS.md."""
    with open(os.path.join(ROOT, "docs", "FORMATS.md")) as file:
        part = re.split("^## ", file.read(), flags=re.M)[1].replace("`", "")
    commands = [it for it in re.findall(r"^\| (.*) \|$", part, re.M) if it.count("|") == 5][1:]
    found = {}
    for it in commands:
        name, required, free, reads = [cell.strip() for cell in it.split("|")[:4]]
        free = [it for it in free.split(", ") if it and " " not in it]
        found[name] = (tuple(required.split(", ")) if required else (), tuple(free), reads)
    yield "the table of commands", COMMANDS, found
    values = dict(it.split(" | ") for it in re.findall(r"^\| (.*) \|$", part, re.M) if it.count("|") == 1)
    yield "the table of keys", VALUES, {name: it for name, it in values.items() if name != "Key"}
    yield "what is read", [what_is_read([it]) for it in ("synth", "check", "family", "x")] + [what_is_read([])], ["a topology", "a report", "", "", ""]


bad = 0
for name, came, due in rows():
    if came != due:
        bad += 1
        print(f"{name}: {came!r} and not {due!r}")
sys.exit(bool(bad))
