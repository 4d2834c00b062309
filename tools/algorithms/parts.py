"""An allreduce among some ranks in two halves: first each rank gets the sum of its part of the slots (a
reduce-scatter), then the parts of all others (an allgather). Nothing of it is proved."""
from typing import List, Sequence, Union

from algorithms import trees
from algorithms.plan import Message, Plan


def power(count: int) -> int:
    """The greatest power of two that is at most the count."""
    return 1 << (count.bit_length() - 1)


def aligned(place: int, length: int) -> range:
    """The block of `length` places that contains this place. Blocks begin at multiples of `length`."""
    first = place - place % length
    return range(first, first + length)


def reversed_places(count: int) -> List[int]:
    """The numbers below `count`, a power of two, in the order of their reversed binary digits."""
    places = [0]
    while len(places) < count:
        places = [2 * place for place in places] + [2 * place + 1 for place in places]
    return places


class Halving:
    """An allreduce by recursive halving and doubling. The number of slots must be a multiple of that of the `takers`.

    In each round, pairs of ranks exchange halves of the slots that they share, until each has the sum of its part. Then
    the rounds are undone in reverse order. The number of takers is the largest power of two that is at most the number
    of members. Each other member first sends its vector to its neighbour, and at the end gets the sum from it. The
    largest messages go half of the members far or, with `near`, to the next member."""

    def __init__(self, plan: Plan, members: Sequence[int], slots: Sequence[int], near: bool = False) -> None:
        self.plan, self.slots = plan, slots
        count = power(len(members))
        self.pairs = [(members[place], members[place + 1]) for place in range(0, 2 * (len(members) - count), 2)]
        outside = {one for one, _ in self.pairs}
        takers = [member for member in members if member not in outside]
        self.takers = [takers[place] for place in reversed_places(count)] if near else takers

    def add_up(self) -> None:
        """Each taker gets the sum of its part. The slots are divided into successive parts, one for each taker."""
        self.plan.combine([Message(one, other, self.slots) for one, other in self.pairs])
        for distance in reversed(trees.powers(len(self.takers))):
            self.plan.combine([Message(rank, self.takers[place ^ distance], self.stretch(place ^ distance, distance))
                               for place, rank in enumerate(self.takers)])

    def spread(self) -> None:
        """Each member gets all parts."""
        for distance in trees.powers(len(self.takers)):
            self.plan.exchange([Message(rank, self.takers[place ^ distance], self.stretch(place, distance))
                                for place, rank in enumerate(self.takers)])
        self.plan.exchange([Message(other, one, self.slots) for one, other in self.pairs])

    def stretch(self, place: int, length: int) -> Sequence[int]:
        """The slots of the parts in the block of `length` places that contains this place."""
        width = len(self.slots) // len(self.takers)
        places = aligned(place, length)
        return self.slots[places.start * width:places.stop * width]


class Ring:
    """An allreduce around a ring, for any number of members: each part goes from rank to rank. The slots are P pieces
    of `unit` slots. Of n members, the one at place p has the pieces k with k * n / P, rounded down, equal to p."""

    def __init__(self, plan: Plan, members: Sequence[int], slots: Sequence[int], unit: int = 1) -> None:
        self.plan, self.takers = plan, members
        count, pieces = len(members), len(slots) // unit
        starts = [-(-pieces * place // count) * unit for place in range(count + 1)]
        self.parts = [slots[start:end] for start, end in zip(starts, starts[1:])]

    def add_up(self) -> None:
        """Each member gets the sum of its part."""
        for step in range(len(self.takers) - 1):
            self.plan.combine(self.on(-1 - step))

    def spread(self) -> None:
        """Each member gets all parts."""
        for step in range(len(self.takers) - 1):
            self.plan.exchange(self.on(-step))

    def on(self, shift: int) -> List[Message]:
        """The messages of a round: each place p sends part p + `shift` to the next place."""
        count = len(self.takers)
        return [Message(rank, self.takers[(place + 1) % count], self.parts[(place + shift) % count])
                for place, rank in enumerate(self.takers)]


def parts_of(plan: Plan, members: Sequence[int], slots: Sequence[int], unit: int = 1) -> Union[Halving, Ring]:
    """A Halving if the number of members is a power of two and divides the number of pieces of `unit` slots, else a
    Ring."""
    if power(len(members)) == len(members) and len(slots) // unit % len(members) == 0:
        return Halving(plan, members, slots)
    return Ring(plan, members, slots, unit)
