"""Rings among some ranks. Nothing of it is proved.

The vector is cut into one block for each member. A block is a list of slots, each of which is sent as a message."""
from typing import Callable, Sequence

from algorithms.plan import Message, Plan


def reduce_scatter(plan: Plan, members: Sequence[int], blocks: Sequence[Sequence[int]]) -> None:
    """Each block goes around the ring and is summed on the way. At the end, place p has the sum of block p + 1."""
    for step in range(len(members) - 1):
        _send_on(plan.combine, members, blocks, -step)


def allgather(plan: Plan, members: Sequence[int], blocks: Sequence[Sequence[int]], shift: int = 0) -> None:
    """Place p begins with block p + shift. The blocks go around the ring until every place has all of them."""
    for step in range(len(members) - 1):
        _send_on(plan.exchange, members, blocks, shift - step)


def _send_on(send: Callable[[Sequence[Message]], None], members: Sequence[int], blocks: Sequence[Sequence[int]], shift: int) -> None:
    """Each place p sends block p + shift to the next place, slot by slot."""
    count = len(members)
    for segment in range(len(blocks[0])):
        send([Message(members[place], members[(place + 1) % count], [blocks[(place + shift) % count][segment]])
              for place in range(count)])
