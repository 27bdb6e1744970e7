"""Where a runtime has the chunks of each collective: its buffers as slots, each of which takes one chunk.

Rank r is the node of the number r, and P the number of ranks. The buffers are those of the calls of NCCL, which RCCL and MSCCL have
too: what belongs to the ranks stands in a buffer one rank behind the other. docs/RUNTIMES.md has this as a table.
"""
from __future__ import annotations

from typing import Callable, NamedTuple, Optional, Tuple

INPUT, OUTPUT, SCRATCH = "i", "o", "s"
ROOTED = "broadcast", "gather", "scatter", "reduce"


class Slot(NamedTuple):
    """Room for one chunk: a buffer of a rank, and a number in it from 0."""

    buffer: str
    place: int


# Of a chunk and a rank the slot, or None; and of a rank how many slots a buffer has.
Where = Callable[[int, int], Optional[Slot]]
Room = Callable[[int], int]
# Where a chunk is at the start, and has to be at the end; and the rooms of the input and of the output.
Buffers = Tuple[Where, Where, Room, Room]


class Layout:
    """The slots of a collective at C chunks (for each rank, but in a broadcast and a reduce), with the root's rank or None.

    `total` is the number of slots into which a runtime cuts a message, which is the greatest buffer, but of a gather and a scatter what
    belongs to one rank.
    """

    def __init__(self, collective: str, ranks: int, root: int | None, chunks: int, is_in_place: bool) -> None:
        self.collective, self.ranks, self.root = collective, ranks, root
        # how many slots belong to each rank, or to each two in an alltoall; and all chunks
        self.each = chunks // ranks if collective == "alltoall" else chunks
        self.total = chunks * ranks if collective in ("allgather", "reducescatter", "allreduce") else chunks
        self.all_chunks = range(chunks if collective in ("broadcast", "reduce") else chunks * ranks)
        self.is_in_place = is_in_place and collective in IN_PLACE
        self.has, self.due, self.inputs, self.outputs = BUFFERS[collective](self)

    def serves_in_place(self) -> bool:
        """A reduce has one form: it leaves its input as it is, and its output may be the same memory."""
        return self.is_in_place or self.collective == "reduce"

    def start(self, chunk: int, rank: int) -> Slot | None:
        """The slot in which the rank has the chunk, or its contribution to it, at the start; or None."""
        return self.placed(self.has(chunk, rank), rank)

    def end(self, chunk: int, rank: int) -> Slot | None:
        """The slot in which the rank has to have the chunk, or its sum, at the end; or None."""
        return self.placed(self.due(chunk, rank), rank)

    def home(self, chunk: int, rank: int) -> Slot | None:
        """The slot in which the rank puts what comes of the chunk; None where it takes one of the scratch buffer."""
        if self.is_in_place and self.collective == "reducescatter":
            return self.start(chunk, rank)
        return self.end(chunk, rank)

    def placed(self, slot: Slot | None, rank: int) -> Slot | None:
        """The slot itself, or of a call in place the one that is the same memory in the buffer that has all."""
        if slot is None or not self.is_in_place or slot.buffer != IN_PLACE[self.collective]:
            return slot
        is_part = self.collective in ("allgather", "reducescatter")
        return Slot(OUTPUT if slot.buffer == INPUT else INPUT, slot.place + (rank * self.each if is_part else 0))

    def owner(self, chunk: int) -> int:
        return chunk % self.ranks

    def own(self, chunk: int) -> int:
        """The place of a chunk among those of its owner."""
        return chunk // self.ranks

    def by_rank(self, chunk: int) -> int:
        """The place of a chunk where those of each rank stand together."""
        return self.owner(chunk) * self.each + self.own(chunk)


# The buffer that a call in place does not have of its own: it is a part of the other, or the other.
IN_PLACE = {"allgather": INPUT, "allreduce": INPUT, "broadcast": INPUT, "reducescatter": OUTPUT}


def at(buffer: str, place: Callable[[int], int], holds: Callable[[int, int], bool]) -> Where:
    """Of a chunk and a rank the slot of that place, where the rank is one that holds the chunk."""
    return lambda chunk, rank: Slot(buffer, place(chunk)) if holds(chunk, rank) else None


def same(chunk: int) -> int:
    return chunk


def everyone(_chunk: int, _rank: int) -> bool:
    return True


def of_broadcast(it: Layout) -> Buffers:
    return at(INPUT, same, lambda _, rank: rank == it.root), at(OUTPUT, same, everyone), lambda _: it.total, lambda _: it.total


def of_reduce(it: Layout) -> Buffers:
    room_at_root = lambda rank: it.total if rank == it.root else 0
    return at(INPUT, same, everyone), at(OUTPUT, same, lambda _, rank: rank == it.root), lambda _: it.total, room_at_root


def of_gather(it: Layout) -> Buffers:
    room_at_root = lambda rank: it.total * it.ranks if rank == it.root else 0
    has = at(INPUT, it.own, lambda chunk, rank: it.owner(chunk) == rank)
    return has, at(OUTPUT, it.by_rank, lambda _, rank: rank == it.root), lambda _: it.each, room_at_root


def of_scatter(it: Layout) -> Buffers:
    room_at_root = lambda rank: it.total * it.ranks if rank == it.root else 0
    due = at(OUTPUT, it.own, lambda chunk, rank: it.owner(chunk) == rank)
    return at(INPUT, it.by_rank, lambda _, rank: rank == it.root), due, room_at_root, lambda _: it.each


def of_allgather(it: Layout) -> Buffers:
    has = at(INPUT, it.own, lambda chunk, rank: it.owner(chunk) == rank)
    return has, at(OUTPUT, it.by_rank, everyone), lambda _: it.each, lambda _: it.total


def of_reducescatter(it: Layout) -> Buffers:
    due = at(OUTPUT, it.own, lambda chunk, rank: it.owner(chunk) == rank)
    return at(INPUT, it.by_rank, everyone), due, lambda _: it.total, lambda _: it.each


def of_allreduce(it: Layout) -> Buffers:
    return at(INPUT, it.by_rank, everyone), at(OUTPUT, it.by_rank, everyone), lambda _: it.total, lambda _: it.total


def of_alltoall(it: Layout) -> Buffers:
    """Chunk c goes from its owner to rank (c / P) mod P, and is the (c / P / P)th that does."""
    def receiver(chunk: int) -> int:
        return chunk // it.ranks % it.ranks

    def among(chunk: int) -> int:
        return chunk // it.ranks // it.ranks

    has = at(INPUT, lambda chunk: receiver(chunk) * it.each + among(chunk), lambda chunk, rank: it.owner(chunk) == rank)
    due = at(OUTPUT, lambda chunk: it.owner(chunk) * it.each + among(chunk), lambda chunk, rank: receiver(chunk) == rank)
    return has, due, lambda _: it.total, lambda _: it.total


BUFFERS: dict[str, Callable[[Layout], Buffers]] = {
    "broadcast": of_broadcast, "reduce": of_reduce, "gather": of_gather, "scatter": of_scatter, "allgather": of_allgather,
    "reducescatter": of_reducescatter, "allreduce": of_allreduce, "alltoall": of_alltoall,
}
