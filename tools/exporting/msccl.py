"""Algorithms as MSCCL XML, which RCCL and the executors of MSCCL read."""
from __future__ import annotations

from typing import Any, Dict, Iterator, List, NamedTuple
from xml.sax.saxutils import quoteattr

from .blocks import WAIT, Block, Rank
from .layouts import INPUT, OUTPUT, Layout, Slot

PROTOCOLS = "Simple", "LL", "LL128"
# What RCCL 2.27.7 (ROCm 7.2) takes: thread blocks of a rank, steps of a block, blocks of a rank that send, or that take, over one
# channel, and channels.
MOST_BLOCKS, MOST_STEPS, MOST_PEERS, MOST_CHANNELS = 64, 64, 32, 128
# What a step names that only waits.
NO_SOURCE, NO_TARGET = Slot(INPUT, -1), Slot(OUTPUT, -1)
NO_WAIT = -1, -1


class Head(NamedTuple):
    """What an algorithm says of itself beside its ranks."""

    name: str
    protocol: str
    channels: int
    instances: int
    least_bytes: int
    most_bytes: int


def algorithm(head: Head, layout: Layout, ranks: List[Rank]) -> Iterator[str]:
    """The lines of the algorithm. Of several instances each has its own part of every slot, and channels of its own."""
    of_all = {
        "name": head.name, "proto": head.protocol, "nchannels": head.channels * head.instances,
        "nchunksperloop": layout.total * head.instances, "ngpus": layout.ranks, "coll": layout.collective,
        "inplace": int(layout.serves_in_place()), "outofplace": int(not layout.is_in_place),
        "minBytes": head.least_bytes, "maxBytes": head.most_bytes,
    }
    yield f"<algo{attributes(of_all)}>"
    for it in ranks:
        rooms = {"i_chunks": layout.inputs(it.rank), "o_chunks": layout.outputs(it.rank), "s_chunks": len(it.scratch)}
        yield f"  <gpu{attributes({'id': it.rank, **{key: room * head.instances for key, room in rooms.items()}})}>"
        for instance in range(head.instances):
            for number, block in enumerate(it.blocks):
                yield from block_lines(head, block, number, instance, instance * len(it.blocks))
        yield "  </gpu>"
    yield "</algo>"


def block_lines(head: Head, block: Block, number: int, instance: int, first: int) -> Iterator[str]:
    """The lines of an instance of a block; `first` is the number of the instance's first block."""
    ends = {"id": first + number, "send": block.sends_to, "recv": block.takes_from, "chan": instance * head.channels + block.channel}
    yield f"    <tb{attributes(ends)}>"
    for number_of_step, step in enumerate(block.steps):
        source, target = (part_of(it, instance, head.instances) for it in (step.source or NO_SOURCE, step.target or NO_TARGET))
        waits_for, until = (step.waits[0] + first, step.waits[1]) if step.waits else NO_WAIT
        said = {
            "s": number_of_step, "type": step.kind, "srcbuf": source.buffer, "srcoff": source.place, "dstbuf": target.buffer,
            "dstoff": target.place, "cnt": int(step.kind != WAIT), "depid": waits_for, "deps": until, "hasdep": int(step.is_awaited),
        }
        yield f"      <step{attributes(said)}/>"
    yield "    </tb>"


def part_of(slot: Slot, instance: int, instances: int) -> Slot:
    """An instance's part of a slot."""
    return Slot(slot.buffer, slot.place if slot.place < 0 else slot.place * instances + instance)


def attributes(found: Dict[str, Any]) -> str:
    return "".join(f" {key}={quoteattr(str(it))}" for key, it in found.items())


def beyond(head: Head, ranks: List[Rank]) -> Iterator[str]:
    """What of the algorithm is more than the parser of RCCL takes, in sentences."""
    channels = head.channels * head.instances
    if channels > MOST_CHANNELS:
        yield f"it has {channels} channels, and RCCL takes {MOST_CHANNELS} at most"
    for it in ranks:
        blocks, steps = len(it.blocks) * head.instances, max((len(block.steps) for block in it.blocks), default=0)
        if blocks > MOST_BLOCKS:
            yield f"rank {it.rank} has {blocks} thread blocks, and RCCL takes {MOST_BLOCKS} at most: fewer channels or instances make fewer"
        if steps > MOST_STEPS:
            yield f"a thread block of rank {it.rank} has {steps} steps, and RCCL takes {MOST_STEPS} at most: more channels make them shorter"
        if most_peers(it) > MOST_PEERS:
            yield f"rank {it.rank} has {most_peers(it)} peers in one direction of one channel, and RCCL takes {MOST_PEERS} at most"


def most_peers(rank: Rank) -> int:
    """How many blocks of the rank send, or take, over one channel, at most."""
    ends = [(block.channel, block.sends_to >= 0) for block in rank.blocks if max(block.sends_to, block.takes_from) >= 0]
    return max((ends.count(it) for it in set(ends)), default=0)
