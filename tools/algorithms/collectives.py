"""The algorithms. Each makes a plan from the parameters that the user asks for. Nothing of it is proved."""
from dataclasses import dataclass
from typing import List, Sequence

from algorithms import rings, trees
from algorithms.parts import Halving, aligned, parts_of, power
from algorithms.plan import Message, Plan, cut
from common.command import Fault


@dataclass(frozen=True)
class Wish:
    """What the user asks for. `size` is in bytes. For a broadcast or an allreduce it is the size of the whole vector,
    for an alltoall that of the item of one rank for another, and otherwise that of the item of one rank."""

    ranks: int
    size: int
    root: int = 0
    segments: int = 1
    node: int = 1
    sum_ps: int = 0

    def cut_plan(self, count: int) -> Plan:
        """A plan whose own slots are the `count` pieces of the vector."""
        return Plan(self.ranks, cut(self.size, count), self.sum_ps)

    def item_plan(self, count: int) -> Plan:
        """A plan with `count` own slots, each of which holds an item."""
        return Plan(self.ranks, [self.size] * count)

    def nodes(self) -> List[range]:
        """The ranks of each node; the last one may have fewer."""
        return [range(first, min(first + self.node, self.ranks)) for first in range(0, self.ranks, self.node)]

    def from_root(self) -> List[int]:
        """All ranks, from the root on."""
        return trees.rotated(self.ranks, self.root)


def one_by_one(count: int) -> List[List[int]]:
    """The slots 0 to count - 1, each in its own list."""
    return [[slot] for slot in range(count)]


def bcast_chain(wish: Wish) -> Plan:
    plan = wish.cut_plan(wish.segments)
    trees.broadcast(plan, wish.from_root(), trees.chain(wish.ranks), one_by_one(wish.segments))
    return plan


def bcast_binary(wish: Wish) -> Plan:
    plan = wish.cut_plan(wish.segments)
    trees.broadcast(plan, wish.from_root(), trees.binary(wish.ranks), one_by_one(wish.segments))
    return plan


def bcast_scatter_allgather(wish: Wish) -> Plan:
    plan = wish.cut_plan(wish.ranks)
    trees.scatter(plan, wish.from_root(), lambda place: place)
    rings.allgather(plan, wish.from_root(), one_by_one(wish.ranks))
    return plan


def allreduce_ring(wish: Wish) -> Plan:
    plan = wish.cut_plan(wish.ranks * wish.segments)
    ring_allreduce(plan, range(wish.ranks), wish.segments)
    return plan


def ring_allreduce(plan: Plan, members: Sequence[int], segments: int) -> None:
    """An allreduce around a ring, with each block of the vector in `segments` segments."""
    blocks = [range(place * segments, (place + 1) * segments) for place in range(len(members))]
    rings.reduce_scatter(plan, members, blocks)
    rings.allgather(plan, members, blocks, shift=1)


def allreduce_halving_doubling(wish: Wish) -> Plan:
    """Halving and doubling where the largest messages go to the rank that is half of all ranks away."""
    return halved_and_doubled(wish, near=False)


def allreduce_halving_doubling_near(wish: Wish) -> Plan:
    """Halving and doubling where the largest messages go to the next rank."""
    return halved_and_doubled(wish, near=True)


def halved_and_doubled(wish: Wish, near: bool) -> Plan:
    count = power(wish.ranks)
    plan = wish.cut_plan(count)
    halving = Halving(plan, range(wish.ranks), range(count), near)
    halving.add_up()
    halving.spread()
    return plan


def allreduce_reduce_bcast(wish: Wish) -> Plan:
    plan = wish.cut_plan(wish.segments)
    tree = trees.binomial(wish.ranks)
    trees.reduce(plan, wish.from_root(), tree, one_by_one(wish.segments))
    trees.broadcast(plan, wish.from_root(), tree, one_by_one(wish.segments))
    return plan


def allreduce_two_level(wish: Wish) -> Plan:
    """Each node reduces to its first rank, these ranks reduce around a ring, and each node broadcasts."""
    nodes = wish.nodes()
    plan = wish.cut_plan(len(nodes))
    vector = [range(len(nodes))]
    for node in nodes:
        trees.reduce(plan, node, trees.binomial(len(node)), vector)
    ring_allreduce(plan, [node[0] for node in nodes], 1)
    for node in nodes:
        trees.broadcast(plan, node, trees.binomial(len(node)), vector)
    return plan


def allreduce_hierarchical(wish: Wish) -> Plan:
    """A reduce-scatter within each node, an allreduce of each part among one rank of each node, and an allgather within
    each node. Each step uses halving and doubling if the number of its ranks is a power of two, else a ring."""
    nodes = wish.nodes()
    count, width = len(nodes[0]), len(nodes)
    plan = wish.cut_plan(count * width)
    inside = [parts_of(plan, node, range(count * width), width) for node in nodes]
    for node in inside:
        node.add_up()
    for part in range(count):
        owners = [node.takers[part * len(node.takers) // count] for node in inside]
        between = parts_of(plan, owners, range(part * width, (part + 1) * width))
        between.add_up()
        between.spread()
    for node in inside:
        node.spread()
    return plan


def allgather_doubling(wish: Wish) -> Plan:
    if wish.ranks & (wish.ranks - 1):
        raise Fault("allgather-doubling needs a power of two of ranks")
    plan = wish.item_plan(wish.ranks)
    for distance in trees.powers(wish.ranks):
        plan.exchange([Message(rank, rank ^ distance, aligned(rank, distance)) for rank in range(wish.ranks)])
    return plan


def allgather_bruck(wish: Wish) -> Plan:
    """In each round, the distance is the number of items that a rank has. The rank at this distance before it gets
    these items, or those that it still lacks."""
    plan = wish.item_plan(wish.ranks)
    for distance in trees.powers(wish.ranks):
        count = min(distance, wish.ranks - distance)
        plan.exchange([Message(rank, (rank - distance) % wish.ranks, [(rank + ahead) % wish.ranks for ahead in range(count)])
                       for rank in range(wish.ranks)])
    return plan


def allgather_neighbour(wish: Wish) -> Plan:
    """Neighbours exchange their items. Then, in each step, a rank sends the last two items that it got, to its left and
    its right in turn."""
    if wish.ranks % 2:
        raise Fault("allgather-neighbour needs an even number of ranks")
    plan = wish.item_plan(wish.ranks)
    sides = [1 if rank % 2 == 0 else -1 for rank in range(wish.ranks)]
    held = [[rank] for rank in range(wish.ranks)]
    for step in range(wish.ranks // 2):
        partners = [(rank + (side if step % 2 == 0 else -side)) % wish.ranks for rank, side in enumerate(sides)]
        plan.exchange([Message(rank, partners[rank], held[rank]) for rank in range(wish.ranks)])
        held = [sorted(held[rank] + held[partners[rank]]) if step == 0 else held[partners[rank]] for rank in range(wish.ranks)]
    return plan


def alltoall_bruck(wish: Wish) -> Plan:
    """An item for the rank that is d ahead moves once for each binary digit 1 of d, in one message with all other items
    that move for this digit."""
    ranks = wish.ranks
    plan = alltoall_plan(wish)
    where = [[(rank + ahead) % ranks for ahead in range(ranks)] for rank in range(ranks)]
    for distance in trees.powers(ranks):
        moved = [ahead for ahead in range(ranks) if ahead & distance]
        messages = []
        for rank in range(ranks):
            target = (rank + distance) % ranks
            into = [ranks + (target - ahead) % ranks if ahead < 2 * distance else plan.spare(target, 1)[0] for ahead in moved]
            messages.append(Message(rank, target, [where[rank][ahead] for ahead in moved], into, len(moved) * wish.size))
        plan.exchange(messages)
        for message in messages:
            for ahead, slot in zip(moved, message.into or ()):
                where[message.target][ahead] = slot
    return plan


def alltoall_pairwise(wish: Wish) -> Plan:
    """In step s, a rank exchanges with the rank whose number is its own xor s if the number of ranks is a power of two.
    Otherwise it sends to the rank s ahead and receives from the rank s behind. A step begins when the previous one has
    ended."""
    plan = alltoall_plan(wish)
    ranks = wish.ranks
    pairs = ranks & (ranks - 1) == 0
    for step in range(1, ranks):
        messages = []
        for rank in range(ranks):
            target = rank ^ step if pairs else (rank + step) % ranks
            messages.append(Message(rank, target, [target], [ranks + rank]))
        plan.exchange(messages)
        plan.end_step()
    return plan


def alltoall_plan(wish: Wish) -> Plan:
    """A plan that begins with a copy at each rank: of the item that the rank has for itself."""
    plan = wish.item_plan(2 * wish.ranks)
    for rank in range(wish.ranks):
        plan.add(rank, [(rank, wish.ranks + rank)])
    return plan


def barrier_tree(wish: Wish) -> Plan:
    plan = wish.item_plan(1)
    members, tree = range(wish.ranks), trees.binomial(wish.ranks)
    trees.reduce(plan, members, tree, [[0]])
    trees.broadcast(plan, members, tree, [[0]])
    return plan


def gather_tree(wish: Wish) -> Plan:
    plan = wish.item_plan(wish.ranks)
    members = wish.from_root()
    trees.gather(plan, members, lambda place: members[place])
    return plan


def scatter_tree(wish: Wish) -> Plan:
    plan = wish.item_plan(wish.ranks)
    members = wish.from_root()
    trees.scatter(plan, members, lambda place: members[place])
    return plan
