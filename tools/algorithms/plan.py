"""A plan: messages, sums and calcs among ranks, from which a schedule with notes is written. Nothing of it is proved.

An algorithm is a function that makes a Plan and returns it:

    from algorithms.plan import Message, Plan, cut

    def to_neighbour(ranks: int, size: int) -> Plan:
        plan = Plan(ranks, cut(size, 1))
        plan.exchange([Message(0, 1, [0])])
        return plan

Each rank has slots, which hold values. The first slots are those of the collective, and have sizes in bytes; `spare` gives
unused slots, for example for incoming values. A message moves the values of some slots, and has the size of these slots.

    plan.exchange(messages)       one round: all messages are sent, then all are received
    plan.combine(messages)        the same, and each incoming value is added to the slot with the same number
    plan.add(rank, pairs, cost)   a calc that adds the first slot of each pair to the second, or copies it if that is empty
    plan.calc(rank, cost, slots)  a calc of `cost` ns that uses these slots and leaves their values unchanged
    plan.spare(rank, count)       slots of the rank that nothing uses yet
    plan.end_step()               ends a step: each rank continues only after all its operations of the step have ended

The plan derives tags, sizes, notes and dependencies:
- It makes both ends of a message together, so they agree in size, slots and tag. The tag is the number of earlier messages
  from the one rank to the other, so no two of them share a channel.
- An operation requires the earlier operations that it would race with: those that set a slot that it reads, and those that
  read or set a slot that it sets. Only `end_step` adds other dependencies.
- So a rank that sends a slot and receives into it in one round receives after its send has ended. If two ranks do this with
  each other, both hang when messages are larger than S. To avoid that, receive into spare slots, as `combine` does.

`cpu` and `nic` of a message are used at both of its ranks. Operations of a rank that no dependency orders can run at the
same time if they are on different cpus and NICs.
"""
from dataclasses import dataclass
from typing import Dict, Iterator, List, Optional, Sequence, Set, Tuple

from common.command import Fault
from common.limits import MOST_BYTES, MOST_DEVICE, MOST_NANOSECONDS, MOST_NEEDS, MOST_NOTES, MOST_OPERATIONS, MOST_RANKS, MOST_SLOT



@dataclass(frozen=True)
class Message:
    """A message with the values of `slots` of rank `source`, for the same slots of rank `target`, or for those of
    `into`.

    Its size is that of its slots, or `size` if that is given. At both ranks it uses this cpu and this NIC.
    """

    source: int
    target: int
    slots: Sequence[int]
    into: Optional[Sequence[int]] = None
    size: Optional[int] = None
    cpu: int = 0
    nic: int = 0


def cut(size: int, count: int) -> List[int]:
    """The sizes of `count` pieces of `size` bytes, which differ by one byte at most."""
    return [(number + 1) * size // count - number * size // count for number in range(count)]


def runs(slots: Sequence[int]) -> List[Tuple[int, int]]:
    """The slots as ranges (first, last) in order: the fewest ranges that give the same list."""
    found: List[Tuple[int, int]] = []
    for slot in slots:
        if found and slot == found[-1][1] + 1:
            found[-1] = (found[-1][0], slot)
        else:
            found.append((slot, slot))
    return found


class Rank:
    """The operations of one rank so far, and the last uses of its slots."""

    def __init__(self, own: int) -> None:
        self.operations: List[str] = []
        self.needs: List[List[int]] = []
        self.notes: List[str] = []
        self.spare = own
        self.setter: Dict[int, int] = {}
        self.readers: Dict[int, List[int]] = {}
        self.step = 0
        self.step_before = range(0)

    def append(self, action: str, reads: Sequence[int], sets: Sequence[int], notes: Sequence[str]) -> int:
        """Adds an operation that reads some slots and then sets some. Returns the number of its dependencies."""
        number = len(self.operations)
        before = set(self.step_before)
        for slot in reads:
            if slot in self.setter:
                before.add(self.setter[slot])
        for slot in sets:
            readers = self.readers.get(slot)
            if readers:
                before.update(readers)
            elif slot in self.setter:
                before.add(self.setter[slot])
        self.operations.append(action)
        self.needs.append(self.last_of(before))
        for note in notes:
            self.notes.append(f"l{number + 1} {note}")
        for slot in reads:
            self.readers.setdefault(slot, []).append(number)
        for slot in sets:
            self.setter[slot] = number
            self.readers[slot] = []
        return len(self.needs[number])

    def last_of(self, before: Set[int]) -> List[int]:
        """Those of these operations that none of the others requires, directly or indirectly."""
        if len(before) < 2:
            return list(before)
        kept: List[int] = []
        reached: Set[int] = set()
        first = min(before)
        for operation in sorted(before, reverse=True):
            if operation in reached:
                continue
            kept.append(operation)
            ahead = [operation]
            while ahead:
                for earlier in self.needs[ahead.pop()]:
                    if earlier >= first and earlier not in reached:
                        reached.add(earlier)
                        ahead.append(earlier)
        return kept[::-1]

    def lines(self) -> Iterator[str]:
        """The lines of the block of the rank."""
        for number, action in enumerate(self.operations):
            yield f"l{number + 1}: {action}"
        for number, needs in enumerate(self.needs):
            for earlier in needs:
                yield f"l{number + 1} requires l{earlier + 1}"
        yield from self.notes


class Plan:
    """A schedule among `ranks` ranks. The collective's own slots, from 0, have these `sizes` in bytes; a sum costs
    `sum_ps` picoseconds per byte, rounded up to whole nanoseconds."""

    def __init__(self, ranks: int, sizes: Sequence[int], sum_ps: int = 0) -> None:
        check("the number of ranks", ranks, MOST_RANKS, 1)
        for size in sizes:
            check("the size of a slot", size, MOST_BYTES)
        check("the cost of a sum", sum_ps, MOST_NANOSECONDS)
        self.sizes = sizes
        self.sum_ps = sum_ps
        self.ranks = [Rank(len(sizes)) for _ in range(ranks)]
        self.messages: Dict[Tuple[int, int], int] = {}
        self.operations = self.needs = self.notes = 0

    def exchange(self, messages: Sequence[Message]) -> None:
        """One round of messages: all are sent, then all are received."""
        receives = []
        for message in messages:
            self._check(message)
            channel = (message.source, message.target)
            tag = self.messages.get(channel, 0)
            self.messages[channel] = tag + 1
            size, options, moves = self._bytes(message), self._options(message, tag), self._moves(message.slots)
            self._append(message.source, f"send {size}b to {message.target} {options}", message.slots, (), moves)
            receives.append((message, f"recv {size}b from {message.source} {options}", moves))
        for message, action, moves in receives:
            if message.into is None:
                self._append(message.target, action, (), message.slots, moves)
            else:
                self._append(message.target, action, (), message.into, self._moves(message.into))

    def combine(self, messages: Sequence[Message]) -> None:
        """One round of messages whose values are added to the slots of the same numbers, or to those of `into`."""
        for message in messages:
            self._check(message)
        spares = [self.spare(message.target, len(message.slots)) for message in messages]
        self.exchange([Message(message.source, message.target, message.slots, spare, message.size, message.cpu, message.nic)
                       for message, spare in zip(messages, spares)])
        for message, spare in zip(messages, spares):
            cost = -(-self._bytes(message) * self.sum_ps // 1000)
            into = message.slots if message.into is None else message.into
            self.add(message.target, list(zip(spare, into)), cost, message.cpu)

    def add(self, rank: int, pairs: Sequence[Tuple[int, int]], cost: int = 0, cpu: int = 0) -> None:
        """A calc of `cost` nanoseconds. For each pair, it adds the value of the first slot to the second, or copies it
        if the second is empty."""
        self._calc(rank, cost, cpu, [slot for pair in pairs for slot in pair], [into for _, into in pairs],
                   [f"adds {slot} to {into}" for slot, into in pairs])

    def calc(self, rank: int, cost: int, slots: Sequence[int] = (), cpu: int = 0) -> None:
        """A calc of `cost` nanoseconds, after the operations that set these slots and before all later ones that read
        or set them."""
        self._calc(rank, cost, cpu, slots, slots, [])

    def spare(self, rank: int, count: int) -> range:
        """`count` unused slots of the rank."""
        check("a rank", rank, len(self.ranks) - 1)
        here = self.ranks[rank]
        here.spare += count
        return range(here.spare - count, here.spare)

    def end_step(self) -> None:
        """Ends a step: each rank continues only after the end of all its operations of the step."""
        for rank in self.ranks:
            if len(rank.operations) > rank.step:
                rank.step_before = range(rank.step, len(rank.operations))
                rank.step = len(rank.operations)

    def text(self) -> Iterator[str]:
        """The canonical text, in pieces."""
        yield f"num_ranks {len(self.ranks)}\n"
        for number, rank in enumerate(self.ranks):
            if rank.operations:
                yield "\n".join([f"rank {number} {{", *rank.lines(), "}\n"])

    def _check(self, message: Message) -> None:
        """Refuses a message between ranks that do not exist, or of slots that cannot exist."""
        most = len(self.ranks) - 1
        check("a rank", message.source, most)
        check("a rank", message.target, most)
        for slot in (*message.slots, *(message.into or ())):
            check("a slot", slot, MOST_SLOT)
        if message.into is not None and len(message.into) != len(message.slots):
            raise Fault(f"a message of {len(message.slots)} slots into {len(message.into)}: give as many in `into` as in `slots`")
        if message.size is None and any(slot >= len(self.sizes) for slot in message.slots):
            raise Fault(f"slot {max(message.slots)} has no size, as the plan has {len(self.sizes)} sizes: give the message a size")
        check("the cpu of a message", message.cpu, MOST_DEVICE)
        check("the nic of a message", message.nic, MOST_DEVICE)

    def _bytes(self, message: Message) -> int:
        size = sum(map(self.sizes.__getitem__, message.slots)) if message.size is None else message.size
        if size > MOST_BYTES:
            raise Fault(f"a message of {size} bytes: it has at most {MOST_BYTES}")
        return check("the size of a message", size, MOST_BYTES)

    @staticmethod
    def _options(message: Message, tag: int) -> str:
        return f"tag {tag} cpu {message.cpu} nic {message.nic}"

    @staticmethod
    def _moves(slots: Sequence[int]) -> List[str]:
        return [f"moves {first} to {last}" for first, last in runs(slots)]

    def _calc(self, rank: int, cost: int, cpu: int, reads: Sequence[int], sets: Sequence[int], notes: Sequence[str]) -> None:
        check("a rank", rank, len(self.ranks) - 1)
        for slot in (*reads, *sets):
            check("a slot", slot, MOST_SLOT)
        if cost > MOST_NANOSECONDS:
            raise Fault(f"a sum of {cost} ns: a calc has at most {MOST_NANOSECONDS}")
        check("the cost of a calc", cost, MOST_NANOSECONDS)
        check("the cpu of a calc", cpu, MOST_DEVICE)
        self._append(rank, f"calc {cost} cpu {cpu}", reads, sets, notes)

    def _append(self, rank: int, action: str, reads: Sequence[int], sets: Sequence[int], notes: Sequence[str]) -> None:
        self.operations += 1
        self.needs += self.ranks[rank].append(action, reads, sets, notes)
        self.notes += len(notes)
        if self.operations > MOST_OPERATIONS or self.needs > MOST_NEEDS or self.notes > MOST_NOTES:
            self._refuse()

    def _refuse(self) -> None:
        """Raises the error for an exceeded limit."""
        for count, most, what in ((self.operations, MOST_OPERATIONS, "operations"), (self.needs, MOST_NEEDS, "dependencies"),
                                  (self.notes, MOST_NOTES, "notes")):
            if count > most:
                raise Fault(f"more than {most} {what}: take fewer ranks or segments")


def check(what: str, number: object, most: int, least: int = 0) -> int:
    """The number; refused unless it is an integer within these limits."""
    if not isinstance(number, int):
        raise Fault(f"{what} is {number!r}: give a whole number")
    if not least <= number <= most:
        raise Fault(f"{what} is {number}: give {least} to {most}")
    return number
