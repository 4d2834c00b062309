"""Certifies each segment of a collective separately, by exchanging slot numbers. Nothing of it is proved."""
from __future__ import annotations

import re
from dataclasses import dataclass
from typing import Dict, Iterator, List, Optional, Set, Tuple

from common import program
from common.canonical import Key, Schedule, rank_count, read_canonical
from common.limits import ROOTED
from common.order import order_of, senders_of

NOTE = re.compile(r"^(l\d+) (moves|adds) (\d+) to (\d+)$", re.MULTILINE)
SLOT = re.compile(r"slot (\d+)$")
# The faults that concern only one segment (all others concern all segments), and those with which `certify` gives no
# verdict.
OF_ONE = ("weight", "wrong")
UNDECIDED = ("too large", "weight")
# The segment of a slot that holds data of several segments.
SEVERAL = -1


def width_of(kind: str, ranks: int) -> int:
    """The number of slots of the collective."""
    return {"allgather": ranks, "gather": ranks, "scatter": ranks, "reduce_scatter": ranks, "alltoall": 2 * ranks}.get(kind, 1)


def begins_at(kind: str, ranks: int, root: int, rank: int) -> Iterator[int]:
    """The slots of the collective that hold data on this rank at the start."""
    if kind in ("bcast", "scatter") and rank != root:
        return iter(())
    if kind in ("allgather", "gather"):
        return iter((rank,))
    return iter(range(ranks) if kind in ("scatter", "alltoall", "reduce_scatter") else (0,))


def wanted_at(kind: str, ranks: int, root: int, rank: int) -> Iterator[int]:
    """The slots whose contents on this rank the collective prescribes at the end."""
    if kind in ("reduce", "gather") and rank != root:
        return iter(())
    if kind in ("scatter", "reduce_scatter"):
        return iter((rank,))
    if kind == "alltoall":
        return iter(range(ranks, 2 * ranks))
    return iter(range(ranks) if kind in ("allgather", "gather") else (0,))


def exchange(slot: int, block: int, width: int) -> int:
    """The new number of a slot when the first `width` slots are exchanged with those of the block."""
    first = block * width
    if slot < width:
        return slot + first
    if first <= slot < first + width:
        return slot - first
    return slot


def exchanged(text: str, block: int, width: int) -> str:
    """The canonical text with these slots exchanged in all notes. A note that moves a range of slots is split where the
    exchange divides the range."""
    first = block * width
    cuts = (width, first, first + width)

    def renamed(note: "re.Match[str]") -> str:
        label, word, low, high = note[1], note[2], int(note[3]), int(note[4])
        if word == "adds":
            return f"{label} adds {exchange(low, block, width)} to {exchange(high, block, width)}"
        starts = sorted({low, *(cut for cut in cuts if low < cut <= high)})
        ends = [start - 1 for start in starts[1:]] + [high]
        return "\n".join(f"{label} moves {exchange(start, block, width)} to {exchange(end, block, width)}"
                         for start, end in zip(starts, ends))

    return NOTE.sub(renamed, text)


@dataclass(frozen=True)
class Use:
    """Why a slot belongs to a segment: an operation reads the data that it has at the start, or leaves data in it at
    the end."""

    slot: int
    key: Key
    does: str

    def __str__(self) -> str:
        return f"slot {self.slot}, which operation {self.key[1]} of rank {self.key[0]} {self.does}"


def uses_of(schedule: Schedule, order: List[Key]) -> Dict[int, Use]:
    """The slots that belong to segments, each with a use that shows this. All other slots only pass data on: on each
    rank, every read gets data that the schedule put there, and the data that was put there last is read."""
    uses: Dict[int, Use] = {}
    last: Dict[Tuple[int, int], Optional[Use]] = {}

    def read(key: Key, slot: int, does: str) -> None:
        if (key[0], slot) not in last:
            uses.setdefault(slot, Use(slot, key, does))
        last[key[0], slot] = None

    for key in order:
        op = schedule.ops[key]
        if op.kind == "calc":
            for source, target in op.notes:
                read(key, source, "reads")
                last[key[0], target] = Use(target, key, "adds to")
        for slot in op.moved() if op.kind != "calc" else ():
            if op.kind == "send":
                read(key, slot, "moves")
            else:
                last[key[0], slot] = Use(slot, key, "moves")
    for use in last.values():
        if use:
            uses.setdefault(use.slot, use)
    return uses


class Segments:
    """A schedule that does a collective on several blocks of slots, the segments. `fault` is a fault of all segments,
    or None. The attributes `schedule`, `order` and `uses` exist only if it is None."""

    def __init__(self, goal: str, kind: str, text: str, root: int = 0) -> None:
        self.goal, self.kind, self.text, self.root = goal, kind, text, root
        self.words = ["certify", kind, "/dev/stdin", *(["--root", str(root)] if kind in ROOTED else [])]
        self.ranks = rank_count(text)
        self.width = width_of(kind, self.ranks)
        fault = self._certify(text)
        self.fault = None if fault is None or fault.startswith(OF_ONE) else fault
        if self.fault is None:
            self.schedule = read_canonical(text.splitlines())
            self.order = list(order_of(self.schedule.ops, senders_of(self.schedule)))
            self.uses = uses_of(self.schedule, self.order)
            self._touched = {slot // self.width for op in self.schedule.ops.values() for slot in op.touched()}
            self._verdicts: Dict[int, Optional[str]] = {0: fault}

    def count(self) -> int:
        """The number of segments: they end before the first block without a slot that belongs to a segment."""
        used = {slot // self.width for slot in self.uses}
        return next(block for block in range(1, len(used) + 2) if block not in used)

    def left_out(self, count: int) -> Optional[Use]:
        """The use of the first slot that belongs to a segment but is after the first `count` blocks, or None."""
        return next((use for slot, use in sorted(self.uses.items()) if slot >= count * self.width), None)

    def stretches(self, count: int) -> List[range]:
        """The segments as ranges: one range for each segment, but neighbouring segments that no note touches share
        one."""
        found: List[range] = []
        for block in range(count):
            alike = block not in self._touched and found and found[-1][0] not in self._touched
            found[-1:] = [range(found[-1][0], block + 1)] if alike else [*found[-1:], range(block, block + 1)]
        return found

    def verdicts(self, count: int) -> Iterator[Tuple[range, Optional[str]]]:
        """For each range of segments, the fault of its first segment in the slot numbers of the schedule, or None.

        None means that the segment is certified alone, and gets no data of another segment when all run at once."""
        mixed = self.mixed(count) if count > 1 else {}
        for blocks in self.stretches(count):
            yield blocks, self.verdict(blocks[0]) or mixed.get(blocks[0])

    def verdict(self, block: int) -> Optional[str]:
        """The fault of a segment alone, or None."""
        if block not in self._verdicts:
            self._verdicts[block] = self._certify(exchanged(self.text, block, self.width))
        fault = self._verdicts[block]
        return fault and SLOT.sub(lambda found: f"slot {exchange(int(found[1]), block, self.width)}", fault)

    def mixed(self, count: int) -> Dict[int, str]:
        """For each segment that gets data of another segment when all run at once, the first slot that does. (A barrier
        moves no data: each rank must hear of all ranks, and may hear more.)"""
        held = self._held_at_end(count)
        found: Dict[int, str] = {}
        for rank in range(self.ranks if self.kind != "barrier" else 0):
            for block in range(count):
                for slot in wanted_at(self.kind, self.ranks, self.root, rank):
                    at = block * self.width + slot
                    if held.get((rank, at), block) != block:
                        found.setdefault(block, f"mixed {rank} slot {at}")
        return found

    def _held_at_end(self, count: int) -> Dict[Tuple[int, int], int]:
        """For each rank and slot that holds data at the end, the segment in which the data began. Any order of
        execution gives the same, since there are no races."""
        held = {(rank, block * self.width + slot): block for rank in range(self.ranks) for block in range(count)
                for slot in begins_at(self.kind, self.ranks, self.root, rank)}
        senders, sent = senders_of(self.schedule), {}
        for key in self.order:
            op = self.schedule.ops[key]
            if op.kind == "send":
                sent[key] = [held.get((key[0], slot)) for slot in op.moved()]
            elif op.kind == "recv":
                for slot, block in zip(op.moved(), sent[senders[key]]):
                    put(held, (key[0], slot), block)
            else:
                for source, target in op.notes:
                    one, other = held.get((key[0], source)), held.get((key[0], target))
                    put(held, (key[0], target), one if other in (one, None) else other if one is None else SEVERAL)
        return held

    def _certify(self, text: str) -> Optional[str]:
        """The fault that `goal certify` finds, or None."""
        answer = program.expect(program.call(self.goal, self.words, text), program.DONE, program.NOT_CERTIFIED)
        return None if answer.status == program.DONE else answer.out.strip().replace("not certified: ", "", 1)


def put(held: Dict[Tuple[int, int], int], place: Tuple[int, int], block: Optional[int]) -> None:
    """Puts data of a segment into a slot, or empties it for None."""
    if block is None:
        held.pop(place, None)
    else:
        held[place] = block
