"""Counts the operations and slots of an algorithm, so that a plan that is too large is refused before it is made.
Nothing of it is proved."""
from dataclasses import dataclass
from typing import TYPE_CHECKING

from algorithms.parts import power
from common.command import Fault
from common.limits import MOST_NOTES, MOST_OPERATIONS

if TYPE_CHECKING:
    from algorithms.collectives import Wish

# Making the messages of a plan with this many slots takes some gigabytes.
MOST_SLOTS = 1 << 26


@dataclass(frozen=True)
class Counts:
    """The numbers of messages, calcs, `adds` notes and slots in messages of a plan; the last two may be a little too
    high."""

    messages: int
    calcs: int = 0
    adds: int = 0
    slots: int = 0

    @property
    def operations(self) -> int:
        return 2 * self.messages + self.calcs

    def check(self) -> None:
        """Refuses a plan that exceeds the limits of a schedule."""
        for count, most, what in ((self.operations, MOST_OPERATIONS, "operations"), (2 * self.messages + self.adds, MOST_NOTES, "notes"),
                                  (2 * self.slots, MOST_SLOTS, "slots in messages")):
            if count > most:
                raise Fault(f"more than {most} {what}: take fewer ranks or segments")


def rounds(count: int) -> int:
    """The binary logarithm of the count, rounded up."""
    return (count - 1).bit_length()


def tree(wish: "Wish") -> Counts:
    messages = (wish.ranks - 1) * wish.segments
    return Counts(messages, slots=messages)


def there_and_back(wish: "Wish") -> Counts:
    """A reduce and a broadcast along the same tree."""
    messages = (wish.ranks - 1) * wish.segments
    return Counts(2 * messages, messages, messages, 2 * messages)


def scatter_allgather(wish: "Wish") -> Counts:
    return Counts((wish.ranks - 1) * (wish.ranks + 1), slots=wish.ranks * (wish.ranks - 1))


def ring(wish: "Wish") -> Counts:
    each = wish.ranks * (wish.ranks - 1) * wish.segments
    return Counts(2 * each, each, each, 2 * each)


def halving(wish: "Wish") -> Counts:
    inside = power(wish.ranks)
    outside = wish.ranks - inside
    each = inside * rounds(inside) + outside
    slots = inside * (inside - 1) + outside * inside
    return Counts(2 * each, each, slots, 2 * slots)


def two_level(wish: "Wish") -> Counts:
    nodes = len(wish.nodes())
    each = wish.ranks - nodes + nodes * (nodes - 1)
    slots = (wish.ranks - nodes) * nodes + nodes * (nodes - 1)
    return Counts(2 * each, each, slots, 2 * slots)


def hierarchical(wish: "Wish") -> Counts:
    sizes = [len(node) for node in wish.nodes()]
    count, width = sizes[0], len(sizes)
    each = sum(part(size, count) for size in sizes) + count * part(width, width)
    slots = count * width * (wish.ranks - 1)
    return Counts(2 * each, each, slots, 2 * slots)


def part(members: int, pieces: int) -> int:
    """The number of messages of a reduce-scatter, or of an allgather, among `members` members: by halving, else a
    ring."""
    is_halved = power(members) == members and pieces % members == 0
    return members * (rounds(members) if is_halved else members - 1)


def doubling(wish: "Wish") -> Counts:
    return Counts(wish.ranks * rounds(wish.ranks), slots=wish.ranks * (wish.ranks - 1))


def neighbour(wish: "Wish") -> Counts:
    return Counts(wish.ranks * (wish.ranks // 2), slots=wish.ranks * (wish.ranks - 1))


def alltoall_bruck(wish: "Wish") -> Counts:
    """An item is sent once for each binary digit 1 of its distance."""
    ranks = wish.ranks
    digits = sum(bin(ahead).count("1") for ahead in range(ranks))
    return Counts(ranks * rounds(ranks), ranks, ranks, ranks * digits)


def pairwise(wish: "Wish") -> Counts:
    each = wish.ranks * (wish.ranks - 1)
    return Counts(each, wish.ranks, wish.ranks, each)


def to_or_from_root(wish: "Wish") -> Counts:
    return Counts(wish.ranks - 1, slots=wish.ranks - 1)
