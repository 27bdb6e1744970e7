"""A run of an algorithm: thread blocks move in the order that a seed draws, and each connection has a queue of so many slots."""
from __future__ import annotations

import random
from collections import Counter, deque
from typing import Deque, Dict, Tuple

from .algorithm import Algorithm, Block, Queue, Slot, Step, need
from .memory import Memory, Value

WITHOUT_END = 1 << 30
# How many steps a block does before another one's turn comes, at most: one, all that it can, or as is drawn each time.
TURNS = (1,), (WITHOUT_END,), (1, 2, 5, WITHOUT_END)


class Run:
    def __init__(self, algorithm: Algorithm, memory: Memory, slots: int, seed: int) -> None:
        self.algorithm, self.memory, self.slots = algorithm, memory, slots
        self.random, self.turns = random.Random(seed), TURNS[seed % len(TURNS)]
        self.cells = memory.start()
        self.queues: Dict[Queue, Deque[Value]] = {}
        self.over: Dict[Tuple[int, int], int] = {(it.rank, it.number): 0 for it in algorithm.blocks}

    def check(self) -> None:
        """Wrong says what does not end, is left in a queue, or does not stand where it has to."""
        self.go()
        need(not any(self.queues.values()), "something that was sent was not taken")
        for cell, wanted in self.memory.wanted().items():
            found = self.cells.get(cell, Counter())
            need(found == wanted, f"rank {cell[0]} has {dict(found)} in slot {cell[2]} of {cell[1]}, and not {dict(wanted)}")

    def go(self) -> None:
        left = [it for it in self.algorithm.blocks if it.steps]
        while left:
            self.random.shuffle(left)
            moved = sum(self.move(it, self.random.choice(self.turns)) for it in left)
            need(moved, "the blocks wait for each other for ever")
            left = [it for it in left if self.over[it.rank, it.number] < len(it.steps)]

    def move(self, block: Block, most: int) -> int:
        """Lets the block do so many steps at most, as far as it need not wait, and says how many it did."""
        key, done = (block.rank, block.number), 0
        while done < most and self.over[key] < len(block.steps) and self.does(block, block.steps[self.over[key]]):
            self.over[key] += 1
            done += 1
        return done

    def does(self, block: Block, step: Step) -> bool:
        """Does the step, unless it has to wait."""
        if step.waits and self.over[block.rank, step.waits[0]] <= step.waits[1]:
            return False
        queue = self.queues.setdefault(block.queue_of(step), deque())
        if step.kind == "s":
            if len(queue) >= self.slots:
                return False
            queue.append(self.value(block, step.source))
        elif step.kind in ("r", "rrc"):
            if not queue:
                return False
            came = queue.popleft()
            self.cells[self.memory.cell(block.rank, step.target)] = came if step.kind == "r" else came + self.value(block, step.source)
        elif step.kind == "cpy":
            self.cells[self.memory.cell(block.rank, step.target)] = self.value(block, step.source)
        return True

    def value(self, block: Block, slot: Slot) -> Value:
        """What the slot has; of one that nobody filled, something that belongs nowhere."""
        cell = self.memory.cell(block.rank, slot)
        return self.cells.get(cell) or Counter({("nothing", cell): 1})
