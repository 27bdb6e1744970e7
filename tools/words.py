"""The commands, their keys and the values of those, as docs/FORMATS.md has them, and what is wrong with words that are refused."""
import difflib
import re
from typing import Dict, Iterable, List, Optional, Tuple

# Each command: the keys that it requires, those that may be left out, and what it reads.
COMMANDS: Dict[str, Tuple[Tuple[str, ...], Tuple[str, ...], str]] = {
    "synth": (("collective", "k", "steps", "chunks", "conflicts"), ("root", "cuts", "ordered", "kept"), "a topology"),
    "check": ((), (), "a report"),
    "replay": (("point",), ("order",), "a report"),
    "programs": (("point",), (), "a report"),
    "family": (("kind", "size"), (), "nothing"),
    "trial": (("n",), (), "nothing"),
    "bound": (("collective", "k", "steps", "chunks", "conflicts"), ("root", "sets"), "a topology"),
    "ordered": (("collective", "k", "steps", "chunks", "conflicts"), ("root",), "a topology"),
    "degrade": (("group", "width"), (), "a report"),
    "json": (("what",), ("point",), "a topology or a report"),
    "unjson": (("what",), (), "JSON"),
}

# What a value of a key is.
VALUES = {
    "collective": "broadcast, gather, allgather, scatter, alltoall, reduce, reducescatter, custom, or, of synth alone, allreduce",
    "k": "0 to 8",
    "steps": "1 to 8",
    "chunks": "1 to 16",
    "conflicts": "1 to 100000",
    "root": "a name: 1 to 16 bytes of a to z, 0 to 9 and _",
    "cuts": "yes",
    "ordered": "yes",
    "kept": "yes",
    "sets": "all",
    "point": "1 to 65535",
    "order": "0 to 18446744073709551615",
    "kind": "line, ring, complete, cube, shared, torus, mesh, switch or boxes",
    "size": "1 to 16, and a size that the kind has: a ring has at least 3 nodes, a shared bus and a switch at least 2, a cube 2, 4, 8 or 16, "
    "a torus 9, 12 or 16, a mesh 8, boxes 8, 12 or 16",
    "n": "0 to 4095",
    "group": "0 to 255",
    "width": "0 to 16",
    "what": "topology or report, or, of json alone, programs",
}

HEADER = re.compile(rb"topology [12]|sccl [12]")


def keys_of(command: str) -> List[str]:
    required, free, _ = COMMANDS[command]
    return [*required, *free]


def what_is_read(words: List[str]) -> str:
    """What a run of these words reads, or nothing where it reads nothing or is refused at once."""
    reads = COMMANDS[words[0]][2] if words and words[0] in COMMANDS else "nothing"
    return "" if reads == "nothing" else reads


def fault(code: int, place: int, words: List[str], text: Optional[bytes]) -> str:
    """What is wrong with the word at the place, in the case at hand; nothing where there is no more to say. `text` is what was read,
    or None."""
    command, word = words[0] if words else "", words[place] if place < len(words) else ""
    if code in (1, 2):
        return near(word, COMMANDS) or f"the commands are {', '.join(COMMANDS)}"
    if command not in COMMANDS:
        return ""
    key, sign, value = word.partition("=")
    if code == 3:
        return wrong_key(command, key, sign)
    if code == 4:
        return f"{key}= is word {next(at for at, it in enumerate(words) if it.startswith(f'{key}='))} too"
    if code == 5:
        return f"lacking: {', '.join(lacking(command, words))}"
    if code == 6 and key in VALUES:
        choices = re.findall("[a-z]+", VALUES[key]) if key in ("collective", "kind", "what") else []
        return f"{key} is {VALUES[key]}{near_in(value, choices)}"
    return of_text(code, value, words, text) if text is not None else ""


def wrong_key(command: str, key: str, sign: str) -> str:
    keys = keys_of(command)
    if not sign:
        return "a word is KEY=VALUE, without spaces" + (f", as {key}=.." if key in keys else "")
    if key in keys:
        return f"{command} takes {key} with what=programs alone"
    return f"{command} has {'the keys ' + ', '.join(keys) if keys else 'no keys'}{near_in(key, keys)}"


def lacking(command: str, words: List[str]) -> List[str]:
    """The keys that are required and do not stand there."""
    there = {it.partition("=")[0] for it in words[1:]}
    required = [*COMMANDS[command][0], *["point"] * ("what=programs" in words)]
    return [it for it in required if it not in there]


def near(word: str, words: Iterable[str]) -> str:
    """A word of these that is like this one, as a question."""
    found = difflib.get_close_matches(word, words, 1)
    return f"is {found[0]} meant?" if found else ""


def near_in(word: str, words: List[str]) -> str:
    found = near(word, words)
    return f" ({found})" if found else ""


def of_text(code: int, value: str, words: List[str], text: bytes) -> str:
    """What the text that was read has, where a word asks for something that it does not have."""
    lines = text.split(b"\n")
    groups = [it.split(b" ") for it in lines if it.startswith(b"group ")]
    if code == 8:
        nodes = next((it for it in lines if it.startswith(b"nodes ")), b"")
        return f"the nodes are {nodes[6:].decode('latin-1')}" if nodes else ""
    if code == 9 and HEADER.fullmatch(lines[0]):
        return f"the report has {sum(it.startswith(b'point ') for it in lines)}"
    if code == 14:
        return f"the topology has {len(groups)}, which are numbered from 0"
    if code == 15:
        group = next((it[len("group="):] for it in words if it.startswith("group=")), "")
        wide = groups[int(group)][1] if group.isdecimal() and int(group) < len(groups) else b""
        return f"that of group {group} is {wide.decode('latin-1')}" if wide else ""
    return ""
