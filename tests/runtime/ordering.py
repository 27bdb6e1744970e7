"""Whether every order of a run does the same: two uses of a cell, of which one writes, must not be able to come either way.

What orders steps: those of a block come one behind the other, a wait comes behind what it waits for, and the n-th take from a queue
behind the n-th send into it. How long a queue is does not count, so that what is right here is right with queues of any length.
"""
from __future__ import annotations

from typing import Dict, List, Tuple

from .algorithm import Algorithm, Block, Queue, Step, need
from .memory import Cell, Memory

# A rank, a block of it and a step of that.
Place = Tuple[int, int, int]


class Ordering:
    def __init__(self, algorithm: Algorithm, memory: Memory) -> None:
        self.algorithm, self.memory = algorithm, memory
        # of each step, as a set of bits, the steps that come before it in every order; and of each queue the steps that send into it
        self.before: Dict[Place, int] = {}
        self.sent: Dict[Queue, List[Place]] = {}
        self.taken: Dict[Queue, int] = {}
        # of each cell the last step that wrote it, and those that have read it since
        self.written: Dict[Cell, int] = {}
        self.read: Dict[Cell, List[int]] = {}

    def check(self) -> None:
        """Wrong says of which cell two uses can come in either order."""
        left = {(it.rank, it.number): 0 for it in self.algorithm.blocks if it.steps}
        bits = 0
        while left:
            moved = 0
            for key in list(left):
                block = self.algorithm.by_number[key]
                while left[key] < len(block.steps) and self.place(block, left[key], bits):
                    bits, moved = bits + 1, moved + 1
                    left[key] += 1
                if left[key] == len(block.steps):
                    del left[key]
            need(moved, "the blocks wait for each other for ever")

    def place(self, block: Block, number: int, bit: int) -> bool:
        """Puts the step behind those that have to be before it, where all of them stand already."""
        step, rank = block.steps[number], block.rank
        earlier = [(rank, block.number, number - 1)] if number else []
        if step.waits:
            earlier.append((rank, *step.waits))
        queue = block.queue_of(step)
        if step.kind in ("r", "rrc"):
            at, sent = self.taken.get(queue, 0), self.sent.get(queue, [])
            if at == len(sent):
                return False
            earlier.append(sent[at])
        if not all(it in self.before for it in earlier):
            return False
        if step.kind in ("r", "rrc"):
            self.taken[queue] = at + 1
        elif step.kind == "s":
            self.sent.setdefault(queue, []).append((rank, block.number, number))
        found = 1 << bit
        for it in earlier:
            found |= self.before[it]
        self.before[rank, block.number, number] = found
        self.use(block, step, bit, found)
        return True

    def use(self, block: Block, step: Step, bit: int, found: int) -> None:
        """Each use comes behind the last write of its cell, and each write behind the uses since."""
        reads, writes = ([self.memory.cell(block.rank, it) for it in used] for used in step.uses())
        for cell in reads + writes:
            others = [self.written[cell]] if cell in self.written else []
            others += self.read.get(cell, []) if cell in writes else []
            need(all(found >> it & 1 for it in others), f"of slot {cell[2]} of {cell[1]} of rank {cell[0]} two uses can come either way")
        for cell in reads:
            self.read.setdefault(cell, []).append(bit)
        for cell in writes:
            self.written[cell], self.read[cell] = bit, []
