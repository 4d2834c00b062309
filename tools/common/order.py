"""An order in which the operations of a schedule can happen if every send is eager. Nothing of it is proved."""
from __future__ import annotations

from typing import Dict, Iterator, List

from common.canonical import Key, Op, Schedule


def senders_of(schedule: Schedule) -> Dict[Key, Key]:
    """The send of each receive. No two messages may share a channel, and no receive may use `any`."""
    sends = {(key[0], op.peer, op.tag): key for key, op in schedule.ops.items() if op.kind == "send"}
    return {key: sends[int(op.peer), str(key[0]), op.tag] for key, op in schedule.ops.items() if op.kind == "recv"}


def order_of(ops: Dict[Key, Op], senders: Dict[Key, Key]) -> Iterator[Key]:
    """The operations, each after all that it requires. Calcs and sends are ordered by their starts, receives by their
    ends; a receive ends after the start of its send, if it has one. Operations that can never happen are left out."""
    # (each operation has two nodes, its start and its end)
    place = {key: 2 * number for number, key in enumerate(ops)}
    after: List[List[int]] = [[] for _ in range(2 * len(ops))]
    missing = [0] * (2 * len(ops))

    def add(first: int, then: int) -> None:
        after[first].append(then)
        missing[then] += 1

    for key, op in ops.items():
        add(place[key], place[key] + 1)
        for number, by_end in op.needs:
            add(place[key[0], number] + by_end, place[key])
        if key in senders:
            add(place[senders[key]], place[key] + 1)
    keys = list(ops)
    ready = [at for at in reversed(range(0, 2 * len(ops), 2)) if not missing[at]]
    while ready:
        at = ready.pop()
        key = keys[at // 2]
        if at % 2 == (ops[key].kind == "recv"):
            yield key
        for then in after[at]:
            missing[then] -= 1
            if not missing[then]:
                ready.append(then)
