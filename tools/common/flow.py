"""What the slots of a schedule hold at the end, and through which notes it came there. Nothing of it is proved.

It follows one possible order of the operations. If there are no races, every order gives the same result.
"""
from __future__ import annotations

from dataclasses import dataclass
from typing import Dict, Iterator, List, Optional, Tuple

from common.canonical import Key, Schedule
from common.order import order_of, senders_of
from segmented import begins_at, wanted_at, width_of

# A contribution: an item that a rank had at the start, as the rank and the number of the item.
Contribution = Tuple[int, int]
Place = Tuple[int, int]


@dataclass(frozen=True)
class Value:
    """A value that a slot got: at the start (`item`), or by the operation `key` from the values with the numbers
    `sources`."""

    place: Place
    sources: Tuple[int, ...] = ()
    item: Optional[Contribution] = None
    key: Optional[Key] = None


class Flow:
    """All values that slots get in a run of a collective. The segments that `blocks` lists have their data at the
    start."""

    def __init__(self, schedule: Schedule, kind: str, root: int, blocks: List[int]) -> None:
        self.schedule, self.kind, self.root = schedule, kind, root
        self.values: List[Value] = []
        self.last: Dict[Place, int] = {}
        width = width_of(kind, schedule.ranks)
        for block in blocks:
            for rank in range(schedule.ranks):
                for slot in begins_at(kind, schedule.ranks, root, rank):
                    self._put(Value((rank, block * width + slot), item=(rank, block * width + slot)))
        self._follow()

    def _put(self, value: Value) -> None:
        self.last[value.place] = len(self.values)
        self.values.append(value)

    def _follow(self) -> None:
        senders = senders_of(self.schedule)
        sent: Dict[Key, List[Optional[int]]] = {}
        for key in order_of(self.schedule.ops, senders):
            op = self.schedule.ops[key]
            if op.kind == "send":
                sent[key] = [self.last.get((key[0], slot)) for slot in op.moved()]
            elif op.kind == "recv":
                for slot, source in zip(op.moved(), sent.get(senders.get(key, key), [])):
                    self._set((key[0], slot), [source], key)
            else:
                for source, target in op.notes:
                    self._set((key[0], target), [self.last.get((key[0], source)), self.last.get((key[0], target))], key)

    def _set(self, place: Place, sources: List[Optional[int]], key: Key) -> None:
        self._put(Value(place, tuple(source for source in sources if source is not None), key=key))

    def holds(self, number: Optional[int]) -> Dict[Contribution, int]:
        """The contributions of a value, each with its multiplicity; none without a value."""
        times = {} if number is None else {number: 1}
        found: Dict[Contribution, int] = {}
        for at in range(number if number is not None else -1, -1, -1):
            count, value = times.pop(at, 0), self.values[at]
            if count and value.item is not None:
                found[value.item] = found.get(value.item, 0) + count
            for source in value.sources if count else ():
                times[source] = times.get(source, 0) + count
        return found

    def way(self, number: int, item: Optional[Contribution]) -> Iterator[int]:
        """The values through which an item came into this value, the last one first. Without an item, it follows the
        first source of each value."""
        while True:
            yield number
            sources = self.values[number].sources
            able = [source for source in sources if item is None or item in self.holds(source)]
            if not able:
                return
            number = able[0]

    def keepers(self, item: Contribution) -> List[Place]:
        """The slots that have an item at the end."""
        having = [value.item == item for value in self.values]
        for at, value in enumerate(self.values):
            having[at] = having[at] or any(having[source] for source in value.sources)
        return sorted(place for place, number in self.last.items() if having[number])


def wanted_of(kind: str, ranks: int, root: int, place: Place, block: int) -> List[Contribution]:
    """The contributions that a collective prescribes for a slot at the end, in the slot numbers of a segment; none if
    it prescribes nothing for the slot."""
    rank, first = place[0], block * width_of(kind, ranks)
    slot = place[1] - first
    if slot not in wanted_at(kind, ranks, root, rank):
        return []
    if kind == "bcast":
        return [(root, first)]
    if kind in ("allgather", "gather"):
        return [(slot, first + slot)]
    if kind == "alltoall":
        return [(slot - ranks, first + rank)]
    if kind == "scatter":
        return [(root, first + rank)]
    if kind == "reduce_scatter":
        return [(other, first + rank) for other in range(ranks)]
    return [(other, first) for other in range(rank + 1 if kind == "scan" else ranks)]
