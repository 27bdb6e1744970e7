"""What a status of the program means, and what the code and the place of a refusal say: the one table of both, with which
docs/FORMATS.md has to agree.
"""
import os
import re
from typing import Dict, List, Optional, Tuple

import blame
import words as command_words

# Each status that is not 0: when it comes. (Those with a line are refusals.)
STATUSES = {
    1: "memory ran out; nothing is written",
    2: "the words are refused",
    3: "the text is no topology",
    4: "standard input could not be read; nothing is written",
    5: "standard output could not be written; a part of what was due may stand there",
    6: "a file of the folder `proofs` could not be written or read; nothing is written",
    7: "the text is no report",
    8: "the report, or a file beside it, is not right",
    9: "the search is too large",
    10: "no chunk count up to `chunks` is allowed",
    11: "the input is too long",
    12: "the input is no JSON of a topology or a report",
}

# What a place counts, by status, and the section of docs/FORMATS.md that has the codes.
PLACES: Dict[int, Tuple[Optional[str], str]] = {
    2: ("word", "Words of the command line"),
    3: ("line", "Topology"),
    7: ("line", "Report"),
    8: ("candidate", "Check"),
    9: ("size", "Refusals"),
    10: (None, "Refusals"),
    11: (None, "Refusals"),
    12: ("line", "JSON"),
}

# The codes of each status: what is refused.
CODES = {
    2: {
        1: "no command is given",
        2: "it is no command",
        3: "it has no `=`, or a key that the command does not have",
        4: "its key stood before",
        5: "a required key is lacking",
        6: "it is no value of its key",
        7: "a `root`, which the collective does not take",
        8: "a `root` that is no node of the topology",
        9: "a `point` that the report does not have",
        12: "a `collective` that does not fit the topology: it is `custom` exactly if the topology has a pattern",
        13: "a command that takes no report of an `allreduce`",
        14: "a `group` that the topology does not have",
        15: "a `width` that is not below the group's",
    },
    3: {
        1: "line 1 is neither of the two headers",
        2: "the line lacks its line feed, or has not the tokens that are due; or a line of the pattern is lacking (the number is that after the last line), or the line stands behind the last",
        3: "line 2: a word that is no name",
        4: "line 2: a name that stood before",
        5: "a name of no node",
        6: "a link from a node to itself",
        7: "a link that stood before in its group",
        8: "a width that is no number from 1 to 16",
        9: "line 2: a 17th name",
        10: "a 257th group",
        11: "line 2: no name, or no line",
        13: "a pattern's number of chunks that is no number from 1 to 16",
        14: "a name of a pattern that does not stand behind the one before it",
    },
    7: {
        1: "the line has a wrong shape, or is refused as one of a topology, or names a node that there is not, or has a number above 65,535 where none may be; or it stands behind `end`",
        2: "the line is lacking (the number is that after the last line), or lacks its line feed",
        3: "the line has the right shape and breaks a rule; a root that is no node is blamed at the line of the nodes",
    },
    8: {
        1: "its schedule exceeds the links, or does not do what the collective demands",
        2: "it is marked `optimal`, and some better candidate within the limits is not refuted; or it is marked `open`, and all are",
        3: "it is within the limits, and is no point, not refuted and not unknown, and no point is no worse",
        4: "a file of it is not there",
        5: "its `.lrat` file is no text of proof lines, or a line is refused, or no line without a literal is accepted; or it has more than 281,474,976,710,656 bytes",
        6: "its `.cnf` file is not the text of its formula",
        7: "its `.partial` file is no log of just as many conflicts as are stated; or it has more than 281,474,976,710,656 bytes",
        8: "as a joined point it is lacking or wrong, or is one too many",
    },
    9: {0: "it may be 2,000,000 at most"},
    10: {0: "for an all-to-all it has to be a multiple of the number of nodes"},
    11: {0: "it may have 1,048,576 bytes at most"},
    12: {
        1: "the bytes are no JSON: not UTF-8, not of the grammar, nested too deep, a number that no 64-bit float holds, or half a pair of surrogates in an escape",
        2: "their value does not have the form",
        3: "the line is one of the text that the JSON stands for, and is refused there",
    },
}

LINE = re.compile(r"refused (\d+) (\d+) ([a-z0-9-]+)\n")
# Refusals of words that the page of usage helps with.
HELPED = (1, 2, 3, 5, 6)
# Codes that stand for one of several things.
MANY = {(2, 3), (2, 5), (3, 1), (3, 2), (3, 11), (7, 1), (7, 2), (7, 3), (12, 1)}


def explanation(status: int, words: List[str], output: bytes, where: str, text: Optional[bytes] = None, columns: int = 80) -> str:
    """What a status from 1 on means: a line, and behind it the line that is blamed. `output` is what was written, or how it began,
    `where` says where that stands, and `text` is what was read, or None where that is not at hand."""
    found = LINE.fullmatch(output.decode("latin-1"))
    said, drawn = f"status {status}, {STATUSES[status]}", ""
    if found and int(found[1]) == status in CODES:
        code, place = int(found[2]), found[3]
        more, drawn = told_of(status, code, place, words, text, columns)
        said += f": {blamed(status, place, words)}{told(status, code, more)}"
        said += f"; {page_for(words)} is a page of usage" if status == 2 and code in HELPED else ""
        said += f' (docs/FORMATS.md, "{PLACES[status][1]}"); the line "{found[0].strip()}" stands {where}'
    elif status == 2:
        said += ": they are not UTF-8; nothing is written"
    return said.replace("`", "") + (drawn and f"\n{drawn}")


def told(status: int, code: int, more: str) -> str:
    """What the code says, and what is wrong in the case at hand: that alone, where the code stands for one of several things."""
    text = re.sub("^line [12]( is|: )", lambda it: "it is" if it[1] == " is" else "", CODES[status][code])
    return more if more and (status, code) in MANY else f"{text}: {more}" if more else text


def told_of(status: int, code: int, place: str, words: List[str], text: Optional[bytes], columns: int) -> Tuple[str, str]:
    """What is wrong in the case at hand, and the line that is blamed with its mark."""
    if status == 2:
        return command_words.fault(code, int(place), words, text), ""
    if status in (3, 7, 12) and text is not None:
        return blame.shown_line(status, code, int(place), text, columns)
    if status == 8 and code == 4:
        return lacking_files(place), ""
    return "", ""


def lacking_files(candidate: str) -> str:
    """Which files of a candidate are not in the folder."""
    names = [f"proofs/{candidate}.{kind}" for kind in ("cnf", "lrat", "partial")]
    there = [it for it in names if os.path.lexists(it)]
    if there:
        return f"{', '.join(it for it in names if it not in there)}"
    return "nothing of it is in the folder proofs here; the files of a report stand where its search ran"


def page_for(words: List[str]) -> str:
    return f"sccl help {words[0]}" if words and words[0] in command_words.COMMANDS else "sccl help"


def blamed(status: int, place: str, words: List[str]) -> str:
    """What is refused, in words."""
    what = PLACES[status][0]
    if what != "word":
        return f"{what} {place}: " if what and place != "0" else ""
    if int(place) < len(words):
        return f"word {place}, {shown(words[int(place)])}: "
    return "behind the last word: " if words else ""


def shown(word: str) -> str:
    """A word of the command line as it may stand on a terminal."""
    plain = "".join(it if it.isprintable() else "?" for it in word)
    return plain if len(plain) <= 60 else f"{plain[:57]}..."
