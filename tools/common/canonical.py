"""Reads the canonical text of a schedule, which `goal show` prints. Nothing of it is proved."""
from __future__ import annotations

import re
from dataclasses import dataclass, field
from typing import Container, Dict, Iterable, List, Optional, Set, Tuple

# An operation: its rank, and its number within the rank, from 0.
Key = Tuple[int, int]
BLOCK = re.compile(r"^rank (\d+) \{$", re.MULTILINE)
# Each line of an operation contains this text once; no other line contains it.
AFTER_LABEL = ": "
# The second word of a note, which says what the note is.
NOTES = ("moves", "adds")


@dataclass
class Op:
    """An operation. `size` is in ns for a calc, else in bytes. `peer` and `tag` are numbers as text, or `any`."""

    kind: str
    size: int
    cpu: int
    peer: str = ""
    tag: str = ""
    # Each operation of the same rank that it requires: the number, and whether it waits for the end (else the start).
    needs: List[Tuple[int, bool]] = field(default_factory=list)
    # The two slots of each note: `moves` has the first and the last slot of a range, `adds` its source and its target.
    notes: List[Tuple[int, int]] = field(default_factory=list)
    nic: int = 0

    def moved(self) -> List[int]:
        """The slots that a send reads or that a receive sets, in order."""
        return [slot for first, last in self.notes for slot in range(first, last + 1)]

    def touched(self) -> Set[int]:
        """All slots that the operation reads or sets."""
        return {slot for note in self.notes for slot in note} if self.kind == "calc" else set(self.moved())


@dataclass
class Schedule:
    """A schedule: the number of ranks, the operations by (rank, number), and the size of each send in bytes."""

    ranks: int
    ops: Dict[Key, Op]
    sizes: Dict[Key, int]


def operation_counts(text: str) -> Dict[int, int]:
    """The number of operations of each rank in a canonical text; ranks without operations are left out."""
    blocks = [(int(found[1]), found.end()) for found in BLOCK.finditer(text)]
    ends = [start for _, start in blocks[1:]] + [len(text)]
    return {rank: text.count(AFTER_LABEL, start, end) for (rank, start), end in zip(blocks, ends)}


def rank_count(text: str) -> int:
    """The number of ranks in a canonical text."""
    return int(text.split(None, 2)[1])


def read_canonical(lines: Iterable[str], wanted: Optional[Container[int]] = None, with_notes: bool = True) -> Schedule:
    """The schedule of a canonical text. With `wanted`, it has only the operations of these ranks, but the sizes of all
    sends. Reading without notes takes half the time."""
    lines = iter(lines)
    schedule = Schedule(int(next(lines).split()[1]), {}, {})
    rank = 0
    for line in lines:
        words = line.split()
        if words[0] == "rank":
            rank = int(words[1])
        elif words[0] != "}" and (with_notes or words[1] not in NOTES):
            key = rank, int(words[0].strip("l:")) - 1
            if words[1] == "send":
                schedule.sizes[key] = int(words[2][:-1])
            if wanted is None or rank in wanted:
                take_item(schedule.ops, key, words)
    return schedule


def take_item(ops: Dict[Key, Op], key: Key, words: List[str]) -> None:
    """Adds the operation, dependency or note that a line of the text has as its words."""
    if words[1] == "calc":
        ops[key] = Op("calc", int(words[2]), int(words[4]))
    elif words[1] in ("send", "recv"):
        ops[key] = Op(words[1], int(words[2][:-1]), int(words[8]), words[4], words[6], nic=int(words[10]))
    elif words[1] in NOTES:
        ops[key].notes.append((int(words[2]), int(words[4])))
    else:
        ops[key].needs.append((int(words[2][1:]) - 1, words[1] == "requires"))
