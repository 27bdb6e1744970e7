"""Lines of tools/exporting, each with a wrong one that has to be caught: the module, what stands there, and what is put in its place."""

WRONG_LINES = [
    # a wait left out
    ("blocks.py", "for it in (reads, writes) if it in self.written]", "for it in (writes,) if it in self.written]"),
    ("blocks.py", "earlier += self.read.get(writes, []) if writes is not None else []", "earlier += []"),
    ("blocks.py", "for it in waits[:-1]:", "for it in waits[:-2]:"),
    ("blocks.py", "last[block] = max(step, last.get(block, NOBODY))", "last[block] = min(step, last.get(block, step))"),
    ("blocks.py", "step > waited.get(block, NOBODY)]", "block not in waited]"),
    ("blocks.py", "waits[-1] if waits else None)", "None)"),
    ("blocks.py", "self.written[target], self.read[target] = here, []", "self.written.setdefault(target, here)"),
    # a wait that nobody tells of
    ("blocks.py", "self.blocks[block].steps[step].is_awaited = True", "self.blocks[block].steps[0].is_awaited = True"),
    # what comes is put where something else stands, or copied where it should be added
    ("blocks.py", "self.scratch.setdefault(chunk, len(self.scratch))", "self.scratch.setdefault(chunk, len(self.scratch) // 2)"),
    ("blocks.py", "ADD if adds else TAKE", "ADD if adds and sender else TAKE"),
    ("blocks.py", "self.at[chunk] if adds else target, target)", "target, target)"),
    ("blocks.py", "        self.at[chunk] = target\n", ""),
    ("blocks.py", "end is not None and self.at[chunk] != end", "end is not None and self.at[chunk] is None"),
    ("blocks.py", "self.number(sends_to, takes_from, turn % self.channels)", "self.number(sends_to, takes_from, (turn + (takes_from > 0)) % self.channels)"),
    # chunks exchanged
    ("layouts.py", "return self.owner(chunk) * self.each + self.own(chunk)", "return chunk"),
    ("layouts.py", "return chunk // it.ranks // it.ranks", "return 0"),
    ("layouts.py", "lambda chunk: it.owner(chunk) * it.each + among(chunk)", "lambda chunk: receiver(chunk) * it.each + among(chunk)"),
    ("layouts.py", "slot.place + (rank * self.each if is_part else 0)", "slot.place + rank * self.each"),
    ("layouts.py", "Slot(OUTPUT if slot.buffer == INPUT else INPUT, ", "Slot(OUTPUT, "),
    # slots too few, and a buffer of another size
    ("msccl.py", '"s_chunks": len(it.scratch)', '"s_chunks": max(0, len(it.scratch) - 1)'),
    ("msccl.py", "layout.total * head.instances", "layout.total"),
    ("layouts.py", 'if collective in ("allgather", "reducescatter", "allreduce") else chunks', 'if collective not in ("broadcast", "reduce") else chunks'),
    ("msccl.py", "else slot.place * instances + instance", "else slot.place + instance"),
    ("msccl.py", "(step.waits[0] + first, step.waits[1])", "step.waits"),
    ("msccl.py", "instance * head.channels + block.channel", "block.channel"),
    # a root, a rank or a part that is another
    ("schedule.py", 'self.report["words"].get("root", self.nodes[0])', "self.nodes[0]"),
    ("schedule.py", "OF_PART.get(part, ", 'OF_PART.get("", '),
]
