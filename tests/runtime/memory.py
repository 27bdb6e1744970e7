"""What a collective finds in the buffers of each rank and has to leave there, by the calls of NCCL; and which slots are the same memory.

What slot k of rank r's input has at the start is the contribution (r, k); a slot holds contributions, each so many times.
"""
from __future__ import annotations

import collections
from typing import Counter, Dict, List, Optional, Tuple

from .algorithm import Algorithm, Slot, need

# A rank, a buffer of it and a number in it; and the contributions that stand there.
Cell = Tuple[int, str, int]
Value = Counter[Tuple[object, object]]

# Where the other buffer begins, of a call in place.
IN_PLACE = {"allgather": "own part", "reducescatter": "own part", "allreduce": "same", "broadcast": "same", "reduce": "same"}
ALL, PART, NONE = "all", "part", "none"
# How much of all the input and the output of the root and of another rank are; of a collective without a root of each rank.
ROOMS = {
    "broadcast": ((ALL, ALL), (ALL, ALL)), "reduce": ((ALL, ALL), (ALL, NONE)), "gather": ((PART, ALL), (PART, NONE)),
    "scatter": ((ALL, PART), (NONE, PART)), "allgather": ((PART, ALL), None), "reducescatter": ((ALL, PART), None),
    "allreduce": ((ALL, ALL), None), "alltoall": ((ALL, ALL), None),
}


class Memory:
    def __init__(self, algorithm: Algorithm, root: Optional[int], is_in_place: bool) -> None:
        self.collective, self.ranks, self.root, self.is_in_place = algorithm.collective, range(algorithm.ranks), root, is_in_place
        need(self.collective in ROOMS, "a collective that there is not")
        need(not is_in_place or self.collective in IN_PLACE, "a collective that has no calls in place")
        # what a runtime cuts is all, but of a gather and a scatter the part of one rank
        self.total = algorithm.total * (algorithm.ranks if self.collective in ("gather", "scatter") else 1)
        self.part, rest = divmod(self.total, algorithm.ranks)
        need(rest == 0 or self.collective in ("broadcast", "reduce", "allreduce"), "a message that is no whole part for each rank")
        for rank, rooms in algorithm.rooms.items():
            need((rooms["i"], rooms["o"]) == self.sizes(rank), f"rank {rank} has buffers of other sizes")

    def sizes(self, rank: int) -> Tuple[int, ...]:
        """How many slots the rank's input and output have."""
        at_root, elsewhere = ROOMS[self.collective]
        of_rank = at_root if elsewhere is None or rank == self.root else elsewhere
        return tuple({ALL: self.total, PART: self.part, NONE: 0}[it] for it in of_rank)

    def cell(self, rank: int, slot: Slot) -> Cell:
        """The memory of a slot of the rank."""
        buffer, place = slot
        if self.is_in_place and buffer != "s":
            whole = "i" if self.collective == "reducescatter" else "o"
            begins = rank * self.part if IN_PLACE[self.collective] == "own part" and buffer != whole else 0
            return rank, whole, begins + place
        return rank, buffer, place

    def start(self) -> Dict[Cell, Value]:
        """What each cell has at the start; others have nothing that counts."""
        ranks = [it for it in self.ranks if it == self.root or self.collective not in ("broadcast", "scatter")]
        return {self.cell(rank, ("i", place)): collections.Counter({(rank, place): 1}) for rank in ranks for place in range(self.sizes(rank)[0])}

    def wanted(self) -> Dict[Cell, Value]:
        """What has to stand where at the end. Where a call is not in place, its input stays as it was."""
        kept = {} if self.is_in_place else self.start()
        due = {self.cell(rank, ("o", place)): self.due(rank, place) for rank in self.ranks for place in range(self.sizes(rank)[1])}
        return {**kept, **due}

    def due(self, rank: int, place: int) -> Value:
        """What slot `place` of the rank's output has to have."""
        of_rank, within = divmod(place, self.part) if self.part else (0, place)
        sources: Dict[str, List[Tuple[object, object]]] = {
            "broadcast": [(self.root, place)],
            "reduce": [(it, place) for it in self.ranks],
            "gather": [(of_rank, within)],
            "scatter": [(self.root, rank * self.part + place)],
            "allgather": [(of_rank, within)],
            "reducescatter": [(it, rank * self.part + place) for it in self.ranks],
            "allreduce": [(it, place) for it in self.ranks],
            "alltoall": [(of_rank, rank * self.part + within)],
        }
        return collections.Counter(sources[self.collective])
