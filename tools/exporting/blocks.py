"""What each rank does, as thread blocks: one for each peer, direction and channel, which run side by side.

A block does its steps in order. Where a step uses a slot that another block used before, it waits for that block: for what wrote
the slot, and where it writes itself, also for what read it. Nothing else makes blocks wait but the queues between ranks.
"""
from __future__ import annotations

from typing import Dict, List, NamedTuple, Tuple

from .layouts import SCRATCH, Layout, Slot

SEND, TAKE, ADD, COPY, WAIT = "s", "r", "rrc", "cpy", "nop"
NOBODY = -1

# A step of a rank: the number of its block, and its own there.
Place = Tuple[int, int]


class NoExport(Exception):
    """There is nothing to write, for the reason that is given."""


class Operation(NamedTuple):
    """What a node does in a step of the schedule: it sends a chunk to another rank, or takes one from it and adds it up or not."""

    when: int
    sends: bool
    chunk: int
    other: int
    adds: bool


class Step:
    """One step of a block. It waits for a step of another block of its rank, or for none."""

    def __init__(self, kind: str, source: Slot | None, target: Slot | None, waits: Place | None) -> None:
        self.kind, self.source, self.target, self.waits, self.is_awaited = kind, source, target, waits, False


class Block:
    """The steps that talk to one peer in one direction over one channel. (Of a block that copies within its rank there is no peer.)"""

    def __init__(self, sends_to: int, takes_from: int, channel: int) -> None:
        self.sends_to, self.takes_from, self.channel = sends_to, takes_from, channel
        self.steps: List[Step] = []
        # of each other block the last step that a step of this one has waited for
        self.waited: Dict[int, int] = {}


class Rank:
    """A rank's blocks, made from its operations in their order."""

    def __init__(self, rank: int, name: str, layout: Layout, channels: int) -> None:
        self.rank, self.name, self.layout, self.channels = rank, name, layout, channels
        self.blocks: List[Block] = []
        # the number of each block by its ends, how many chunks went between these, and the scratch slots of chunks
        self.numbers: Dict[Tuple[int, int, int], int] = {}
        self.passed: Dict[Tuple[int, int], int] = {}
        self.scratch: Dict[int, int] = {}
        # of each slot the last step that wrote it, and those that have read it since
        self.written: Dict[Slot, Place] = {}
        self.read: Dict[Slot, List[Place]] = {}
        starts = ((chunk, layout.start(chunk, rank)) for chunk in layout.all_chunks)
        self.at = {chunk: slot for chunk, slot in starts if slot is not None}

    def send(self, chunk: int, receiver: int, when: int) -> None:
        if chunk not in self.at:
            raise NoExport(f"in step {when} {self.name} sends chunk {chunk}, which it does not have then")
        self.add(self.block(receiver, NOBODY), SEND, self.at[chunk], self.at[chunk])

    def take(self, chunk: int, sender: int, adds: bool) -> None:
        target = self.home(chunk)
        self.add(self.block(NOBODY, sender), ADD if adds else TAKE, self.at[chunk] if adds else target, target)
        self.at[chunk] = target

    def settle(self) -> None:
        """Copies what does not stand yet where it has to be at the end."""
        for chunk in self.layout.all_chunks:
            end = self.layout.end(chunk, self.rank)
            if end is not None and self.at[chunk] != end:
                self.add(self.number(NOBODY, NOBODY, 0), COPY, self.at[chunk], end)

    def home(self, chunk: int) -> Slot:
        slot = self.layout.home(chunk, self.rank)
        return slot if slot is not None else Slot(SCRATCH, self.scratch.setdefault(chunk, len(self.scratch)))

    def block(self, sends_to: int, takes_from: int) -> int:
        """The block of this direction whose turn it is: the channels are taken in turn, at both ends in the same order."""
        turn = self.passed.get((sends_to, takes_from), 0)
        self.passed[sends_to, takes_from] = turn + 1
        return self.number(sends_to, takes_from, turn % self.channels)

    def number(self, sends_to: int, takes_from: int, channel: int) -> int:
        ends = sends_to, takes_from, channel
        if ends not in self.numbers:
            self.numbers[ends] = len(self.blocks)
            self.blocks.append(Block(*ends))
        return self.numbers[ends]

    def add(self, number: int, kind: str, source: Slot, target: Slot) -> None:
        """A step behind all that it has to wait for. It takes one such wait itself; steps that do nothing else take the others."""
        reads, writes = kind != TAKE, kind != SEND
        waits = self.waits(number, source if reads else None, target if writes else None)
        steps = self.blocks[number].steps
        for it in waits[:-1]:
            steps.append(Step(WAIT, None, None, it))
        steps.append(Step(kind, source, target, waits[-1] if waits else None))
        here = number, len(steps) - 1
        if reads:
            self.read.setdefault(source, []).append(here)
        if writes:
            self.written[target], self.read[target] = here, []

    def waits(self, number: int, reads: Slot | None, writes: Slot | None) -> List[Place]:
        """The steps of other blocks that have to be over: of each block the last, if this block has not waited for it yet."""
        earlier = [self.written[it] for it in (reads, writes) if it in self.written]
        earlier += self.read.get(writes, []) if writes is not None else []
        last: Dict[int, int] = {}
        for block, step in earlier:
            last[block] = max(step, last.get(block, NOBODY))
        waited = self.blocks[number].waited
        found = [(block, step) for block, step in sorted(last.items()) if block != number and step > waited.get(block, NOBODY)]
        waited.update(found)
        for block, step in found:
            self.blocks[block].steps[step].is_awaited = True
        return found


def ranks_of(programs: List[Tuple[str, List[Operation]]], layout: Layout, channels: int) -> List[Rank]:
    """The ranks of a schedule, of which each has a name and its operations in their order."""
    found = []
    for rank, (name, operations) in enumerate(programs):
        made = Rank(rank, name, layout, channels)
        for it in operations:
            if it.sends:
                made.send(it.chunk, it.other, it.when)
            else:
                made.take(it.chunk, it.other, it.adds)
        made.settle()
        found.append(made)
    return found
