"""An algorithm in XML as a value, and the rules of its form."""
from __future__ import annotations

import xml.etree.ElementTree as ElementTree
from typing import Dict, List, Tuple

KINDS = "s", "r", "rrc", "cpy", "nop"
BUFFERS = "i", "o", "s"
SENDS, TAKES = ("s",), ("r", "rrc")

# A buffer of a rank, and a number in it; and the sender, the receiver and the channel of a queue.
Slot = Tuple[str, int]
Queue = Tuple[int, int, int]


class Wrong(Exception):
    """An algorithm is wrong, for the reason that is given."""


def need(test: object, otherwise: str) -> None:
    if not test:
        raise Wrong(otherwise)


def word(found: ElementTree.Element, key: str) -> str:
    value = found.get(key)
    if value is None:
        raise Wrong(f"{found.tag} lacks {key}")
    return value


def number(found: ElementTree.Element, key: str) -> int:
    return int(word(found, key))


class Step:
    def __init__(self, found: ElementTree.Element, place: int) -> None:
        need(number(found, "s") == place, f"step {word(found, 's')} is the one of number {place}")
        self.kind, self.count = word(found, "type"), number(found, "cnt")
        self.source = word(found, "srcbuf"), number(found, "srcoff")
        self.target = word(found, "dstbuf"), number(found, "dstoff")
        waits = number(found, "depid"), number(found, "deps")
        self.waits = None if waits == (-1, -1) else waits
        self.is_awaited = {"0": False, "1": True}[word(found, "hasdep")]
        need(self.kind in KINDS and self.source[0] in BUFFERS and self.target[0] in BUFFERS, "no kind of step, or no buffer")
        need(self.count == int(self.kind != "nop"), "a step is of one slot, and one that waits alone of none")

    def uses(self) -> Tuple[List[Slot], List[Slot]]:
        """The slots that are read, and those that are written."""
        reads = [self.source] if self.kind in ("s", "rrc", "cpy") else []
        return reads, [self.target] if self.kind in ("r", "rrc", "cpy") else []


class Block:
    def __init__(self, rank: int, found: ElementTree.Element, place: int) -> None:
        need(number(found, "id") == place, f"block {word(found, 'id')} is the one of number {place}")
        self.rank, self.number = rank, place
        self.sends_to, self.takes_from, self.channel = (number(found, it) for it in ("send", "recv", "chan"))
        self.steps = [Step(it, place) for place, it in enumerate(found)]

    def queue_of(self, step: Step) -> Queue:
        """The queue into which the step sends, or from which it takes."""
        return (self.rank, self.sends_to, self.channel) if step.kind in SENDS else (self.takes_from, self.rank, self.channel)


class Algorithm:
    def __init__(self, text: str | bytes) -> None:
        found = ElementTree.fromstring(text)
        self.collective, self.protocol, self.name = (word(found, it) for it in ("coll", "proto", "name"))
        self.ranks, self.total, self.channels = (number(found, it) for it in ("ngpus", "nchunksperloop", "nchannels"))
        self.is_in_place, self.is_out_of_place = (word(found, it) == "1" for it in ("inplace", "outofplace"))
        self.rooms: Dict[int, Dict[str, int]] = {}
        self.blocks: List[Block] = []
        for rank, of_rank in enumerate(found):
            need(number(of_rank, "id") == rank, f"rank {word(of_rank, 'id')} is the one of number {rank}")
            self.rooms[rank] = {it: number(of_rank, f"{it}_chunks") for it in BUFFERS}
            self.blocks += [Block(rank, it, place) for place, it in enumerate(of_rank)]
        need(len(self.rooms) == self.ranks, "not as many ranks as are said")
        self.by_number = {(it.rank, it.number): it for it in self.blocks}
        self.check_ends()
        for it in self.blocks:
            self.check_waits(it)
            self.check_slots(it)

    def check_ends(self) -> None:
        """Each block has one peer at most, which is another rank, and is the only one of its rank, direction and channel."""
        seen = set()
        for it in self.blocks:
            need(0 <= it.channel < self.channels, "a channel that there is not")
            need(it.sends_to != it.rank and it.takes_from != it.rank, "a rank that is its own peer")
            need(max(it.sends_to, it.takes_from) < self.ranks, "a peer that there is not")
            for end in ("to", it.sends_to), ("from", it.takes_from):
                need(end[1] < 0 or (it.rank, *end, it.channel) not in seen, "two blocks for one connection")
                seen.add((it.rank, *end, it.channel))
            for step in it.steps:
                need(step.kind not in SENDS or it.sends_to >= 0, "a send to nobody")
                need(step.kind not in TAKES or it.takes_from >= 0, "a take from nobody")

    def check_waits(self, block: Block) -> None:
        """A wait is for a step that says so; what waits for several has the last wait itself, as RCCL demands."""
        before = ""
        for step in block.steps:
            if step.waits:
                other, until = self.by_number.get((block.rank, step.waits[0])), step.waits[1]
                if other is None or not 0 <= until < len(other.steps):
                    raise Wrong("a wait for a step that there is not")
                awaited = other.steps[until]
                need(awaited.is_awaited and awaited.kind != "nop", "a wait for a step that tells nobody when it is over")
            need(step.waits or step.kind != "nop", "a step that only waits, and for nothing")
            need(step.waits or before != "nop", "a step that does not wait, behind one that only waits")
            before = step.kind
        need(before != "nop", "a block that ends with a wait")

    def check_slots(self, block: Block) -> None:
        for step in block.steps:
            for used in step.uses():
                for buffer, place in used:
                    has = self.rooms[block.rank][buffer]
                    need(0 <= place < has, f"slot {place} of {buffer}, of which rank {block.rank} has {has}")
