"""Trees among some ranks, and what goes up and down them. Nothing of it is proved.

The members of a tree are a list of ranks, the root first. A tree is a list of edges (parent, child) in the order in
which a broadcast uses them; parent and child are places in the list of members."""
from typing import Callable, List, Sequence, Tuple

from algorithms.plan import Message, Plan

Tree = List[Tuple[int, int]]


def chain(count: int) -> Tree:
    """A chain: each place sends to the next."""
    return [(place, place + 1) for place in range(count - 1)]


def binary(count: int) -> Tree:
    """A complete binary tree, row by row."""
    return [((child - 1) // 2, child) for child in range(1, count)]


def binomial(count: int) -> Tree:
    """A binomial tree: in each round the distance halves, and each place that has the value sends it that far."""
    edges: Tree = []
    for distance in reversed(powers(count)):
        edges += [(parent, parent + distance) for parent in range(0, count - distance, 2 * distance)]
    return edges


def powers(count: int) -> List[int]:
    """The powers of two below the count, from 1."""
    return [1 << digit for digit in range((count - 1).bit_length())]


def rotated(ranks: int, root: int) -> List[int]:
    """All ranks in order, from the root on and around."""
    return [(root + place) % ranks for place in range(ranks)]


def broadcast(plan: Plan, members: Sequence[int], tree: Tree, messages: Sequence[Sequence[int]]) -> None:
    """Sends the root's values down the tree, with a message for each list of slots."""
    for slots in messages:
        for parent, child in tree:
            plan.exchange([Message(members[parent], members[child], slots)])


def reduce(plan: Plan, members: Sequence[int], tree: Tree, messages: Sequence[Sequence[int]]) -> None:
    """Sums all values up the tree to the root, with a message for each list of slots."""
    for slots in messages:
        for parent, child in reversed(tree):
            plan.combine([Message(members[child], members[parent], slots)])


def part(child: int, count: int) -> range:
    """The places in the subtree of this child, with itself, in the binomial tree."""
    return range(child, min(child + (child & -child), count))


def scatter(plan: Plan, members: Sequence[int], slot_of: Callable[[int], int]) -> None:
    """Sends the root's slot for each place down the binomial tree, in one message with the slots of the place's
    subtree."""
    for parent, child in binomial(len(members)):
        slots = [slot_of(place) for place in part(child, len(members))]
        plan.exchange([Message(members[parent], members[child], slots)])


def gather(plan: Plan, members: Sequence[int], slot_of: Callable[[int], int]) -> None:
    """Sends the slot of each place up the binomial tree to the root, in one message with the slots of its subtree."""
    for parent, child in reversed(binomial(len(members))):
        slots = [slot_of(place) for place in part(child, len(members))]
        plan.exchange([Message(members[child], members[parent], slots)])
