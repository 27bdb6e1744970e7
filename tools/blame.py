"""The line that a refusal blames, with a mark under the place, and what is wrong there.

The checks are those of docs/FORMATS.md, made again for one line. What they find is told only where the program found the same.
"""
import json
import re
from typing import List, NamedTuple, Optional, Tuple


class Place(NamedTuple):
    """What is wrong: where in the line it begins (in bytes), how many it has, and what it is."""
    column: int
    length: int
    what: str


# A word of a line with its column, and the code and the place of a fault.
Word = Tuple[int, str]
Trouble = Tuple[int, Place]
NAME = re.compile("[a-z0-9_]{1,16}")
NUMBER = re.compile("0|[1-9][0-9]*")
MOST_NODES = 16

# The shape of each line of a report behind its topology, by its first word.
SHAPES = {
    "frontier": ["frontier whole", "frontier reduce", "frontier gather"],
    "point": ["point S R C optimal", "point S R C open", "point S R C joined A"],
    "rounds": ["rounds and S numbers"],
    "send": ["send CHUNK FROM TO STEP"],
    "refuted": ["refuted S R C"],
    "unknown": ["unknown S R C N"],
    "joined": ["joined"],
    "end": ["end"],
}
# What a line of the right shape has to keep.
RULES = {
    "synth": "each number is in the range of its key, and behind sccl 2 the collective is custom",
    "topology": "its version is that of line 1",
    "nodes": "the root of line 2 is one of the nodes",
    "point": "S, R and C are within the limits of line 2, and a point stands behind the one before it, by S, then R/C, then C",
    "rounds": "there are S numbers from 1 to 9, with the sum R",
    "send": "CHUNK is below the number of chunks, STEP is 1 to S, and a send stands behind the one before it, by step, chunk, sender "
            "and receiver",
    "refuted": "S, R and C are within the limits of line 2, and the lines stand in the order of the search",
    "unknown": "S, R and C are within the limits of line 2, the lines stand in the order of the search, and N is conflicts",
}


def shown_line(status: int, code: int, number: int, text: bytes, columns: int) -> Tuple[str, str]:
    """What is wrong in the line, and the line with its mark; nothing where the text has no such line."""
    if status == 12:
        return in_json(text, columns) if code == 1 else ("", "")
    lines = text.split(b"\n")
    is_cut = lines[-1] != b""
    if not is_cut:
        lines.pop()
    if number > len(lines):
        return (f"the text ends with line {len(lines)}" if lines else "the text is empty"), ""
    line = lines[number - 1].decode("latin-1")
    found = place_in(status, code, number, lines, line, is_cut and number == len(lines))
    return found.what if found else "", drawn(number, line, found, columns)


def place_in(status: int, code: int, number: int, lines: List[bytes], line: str, is_cut: bool) -> Optional[Place]:
    shape = code in ((1, 2, 11) if status == 3 else (1, 2))
    if is_cut and code == 2:
        return Place(len(line), 1, "the last line lacks its line feed")
    found = oddity(line) if shape else None
    if not found and status == 3:
        found = of_code(code, trouble(line, number, names_of(lines)))
    elif not found and code == 1:
        found = report_shape(line, number, names_of(lines))
    elif not found and status == 7 and code == 3:
        rule = RULES.get(line.split(" ")[0])
        found = whole(line, rule and f"a rule is broken: {rule}" or "")
    if found and status == 3 and not shape and line.endswith("\r") and found.column + found.length >= len(line):
        return oddity(line)
    return found


def oddity(line: str) -> Optional[Place]:
    """What a text may not have in any line."""
    if line in ("", "\r"):
        return Place(0, 1, "the line is blank")
    if line.endswith("\r"):
        return Place(len(line) - 1, 1, "the line ends with a carriage return, as lines of Windows do (CRLF)")
    for form, what in (("\xef\xbb\xbf", "the text begins with a byte order mark"),
                       (r"\s*(#|//).*", "a comment, which the text may not have"), (r"\s+$", "a space at the end of the line"),
                       (r"^\s+", "a space at the beginning of the line"), ("\t", "a tab"), (" {2,}", "two spaces, or more"),
                       ("[^ -~]", "a byte that is no printable ASCII")):
        found = re.search(form, line)
        if found:
            return Place(found.start(), len(found[0]), what)
    return None


def names_of(lines: List[bytes]) -> List[str]:
    """The names of the nodes, by the first line that has them."""
    return next((it.decode("latin-1").rstrip("\r").split(" ")[1:] for it in lines if it.startswith(b"nodes ")), [])


def of_code(code: int, found: Optional[Trouble]) -> Optional[Place]:
    """The place, where it is the code's."""
    return found[1] if found and found[0] == code else None


def words_of(line: str) -> List[Word]:
    """The words of a line, each with its column."""
    at = 0
    found: List[Word] = []
    for it in line.split(" "):
        found.append((at, it))
        at += len(it) + 1
    return found


def trouble(line: str, number: int, names: List[str]) -> Optional[Trouble]:
    """The code and the place of the first thing that is wrong in a line of a topology."""
    words = words_of(line)
    first = words[0][1]
    if number == 1:
        return (1, whole(line, "due is topology 1 or topology 2"))
    if number == 2 and first != "nodes":
        return (2, whole(line, "due is nodes and the names"))
    kinds = {"nodes": nodes_trouble, "group": group_trouble, "custom": custom_trouble, "before": holders_trouble, "after": holders_trouble}
    return kinds[first](words, names) if first in kinds else (2, mark(words[0], "due is group, a width and links"))


def nodes_trouble(words: List[Word], _: List[str]) -> Optional[Trouble]:
    if len(words) == 1:
        return (11, mark(words[0], "no name follows"))
    for at, it in enumerate(words[1:]):
        if at == MOST_NODES:
            return (9, mark(it, ""))
        if not NAME.fullmatch(it[1]):
            return (3, mark(it, f"{plain(it[1])} is no name: 1 to 16 of a to z, 0 to 9 and _"))
        if it[1] in [other for _, other in words[1:at + 1]]:
            return (4, mark(it, ""))
    return None


def group_trouble(words: List[Word], names: List[str]) -> Optional[Trouble]:
    if len(words) < 3:
        return (2, mark(words[-1], "due is group, a width and at least one link"))
    if not in_range(words[1][1]):
        return (8, mark(words[1], ""))
    before: List[str] = []
    for column, link in words[2:]:
        ends = link.split(">")
        if len(ends) != 2:
            return (2, Place(column, len(link), f"{plain(link)} is no link: a name, > and a name"))
        for at, it in zip((column, column + len(ends[0]) + 1), ends):
            if it not in names:
                return (5, unknown(at, it, names))
        if ends[0] == ends[1] or link in before:
            return (6 if ends[0] == ends[1] else 7, Place(column, len(link), ""))
        before.append(link)
    return None


def custom_trouble(words: List[Word], _: List[str]) -> Optional[Trouble]:
    if len(words) != 2:
        return (2, mark(words[-1], "due is custom and a number"))
    return None if in_range(words[1][1]) else (13, mark(words[1], ""))


def holders_trouble(words: List[Word], names: List[str]) -> Optional[Trouble]:
    if len(words) < 2:
        return (2, mark(words[0], f"due is {words[0][1]}, the chunk's number and names"))
    last = -1
    for at, it in words[2:]:
        if it not in names:
            return (5, unknown(at, it, names))
        if names.index(it) <= last:
            return (14, Place(at, len(it), ""))
        last = names.index(it)
    return None


def report_shape(line: str, number: int, names: List[str]) -> Optional[Place]:
    """What is wrong with the shape of a line of a report."""
    words = words_of(line)
    first = words[0][1]
    if number == 1:
        return whole(line, "due is sccl 1 or sccl 2")
    if number == 2:
        return whole(line, "due is synth collective=WORD k=N steps=N chunks=N conflicts=N, root=NAME where the collective takes a root, "
                     "and then cuts=yes and ordered=yes where the search was asked so")
    if first in ("nodes", "group", "custom", "before", "after"):
        found = trouble(line, 0, names)
        return found[1] if found else None
    if first not in SHAPES:
        return mark(words[0], "no line of a report begins so")
    return next((it for it in (word_trouble(word, shape, names) for word, shape in zip(words, SHAPES[first][0].split(" "))) if it), None) \
        or whole(line, f"due is {' or '.join(SHAPES[first])}")


def word_trouble(word: Word, shape: str, names: List[str]) -> Optional[Place]:
    if shape in ("FROM", "TO") and word[1] not in names:
        return unknown(word[0], word[1], names)
    if len(shape) > 1 and shape not in ("CHUNK", "STEP") or shape in ("S", "and") and not word[1]:
        return None
    return None if NUMBER.fullmatch(word[1]) and int(word[1]) <= 65535 else mark(word, f"due is a number, {shape}, of at most 65535")


def in_json(text: bytes, columns: int) -> Tuple[str, str]:
    """Where Python's reader stops, and that line. (It takes some bytes that the program refuses, and then there is none.)"""
    try:
        json.loads(text.decode("utf-8"))
    except UnicodeDecodeError as fault:
        start, what = fault.start, "a byte that is no UTF-8"
    except json.JSONDecodeError as stop:
        start, what = len(stop.doc[:stop.pos].encode("utf-8")), stop.msg
    except RecursionError:
        return "", ""
    else:
        return "", ""
    number, begin = text.count(b"\n", 0, start) + 1, text.rfind(b"\n", 0, start) + 1
    line = text[begin:].split(b"\n")[0].decode("latin-1")
    return f"line {number}: {what}", drawn(number, line, Place(start - begin, 1, what), columns)


def in_range(word: str) -> bool:
    return bool(re.fullmatch("[1-9]|1[0-6]", word))


def mark(word: Word, what: str) -> Place:
    return Place(word[0], max(1, len(word[1])), what)


def whole(line: str, what: str) -> Place:
    return Place(0, max(1, len(line)), what)


def unknown(at: int, name: str, names: List[str]) -> Place:
    return Place(at, max(1, len(name)), f"{plain(name) or 'nothing'} is none of the nodes {' '.join(map(plain, names))}")


def plain(text: str) -> str:
    """Text as it may stand on a terminal, byte for byte."""
    return "".join(it if " " <= it <= "~" else "?" for it in text)


def drawn(number: int, line: str, found: Optional[Place], columns: int) -> str:
    """The line, as far as there is room, with its mark."""
    margin = f"  {number} | "
    room = max(20, columns - len(margin) - 1)
    start = max(0, found.column - room // 2) if found and len(line) > room else 0
    shown = plain(line.rstrip("\r"))[start:start + room]
    rows = [(margin + shown).rstrip()]
    if found:
        column = found.column - start
        rows.append(f"  {' ' * len(str(number))} | {' ' * column}{'^' * max(1, min(found.length, room - column))}")
    return "\n".join(rows)
