"""The causes of each action of a run, and their times, by docs/EVENT_RULES.md. Nothing of it is proved.

A printed run has the start and the end of each operation. From these and the costs of the messages follow the times
of all actions, and how long each action holds its cpu and its side of a NIC. `Causes` replays the actions of a run in
order. It checks that each happens at the greatest of the times that the rules name, and refuses a run with other costs.
"""
from __future__ import annotations

from dataclasses import dataclass
from heapq import heapify, heappop, heappush
from typing import Dict, Iterator, List, Optional, Set, Tuple

from common.canonical import Key, Schedule
from common.parameters import Costs, Parameters, up
from common.phases import Misfit, Story

# The classes of actions, in the order of the rules. END is the end of an operation, which is a time and not an action.
ARRIVE, SERVE, DATA, POST, BEGIN, END = range(6)
Action = Tuple[int, Key]
# What an action waits for:
# - the end or the start of an operation that it requires;
# - its message, or the data of a rendezvous send;
# - the request to send (RTS) of a rendezvous send, or the post of the receive;
# - the action that held its cpu or its side of a NIC before;
# - the last action of its operation (LAST), if it is an end.
NEED_END, NEED_START, MESSAGE, REQUEST, RECEIVE, BYTES, CPU, NIC, LAST = (
    "end", "start", "message", "request", "post", "bytes", "cpu", "nic", "last")  # fmt: skip


@dataclass(frozen=True)
class Part:
    """A part of a span of time: `count` times a parameter, `count` bytes at the rate G or O, or one calc. `costs` has
    the parameters of the message."""

    name: str
    count: int
    nanos: int
    costs: Optional[Parameters] = None


Parts = Tuple[Part, ...]


def per_byte(name: str, costs: Parameters, size: int) -> Part:
    """The cost of the bytes of a message at the rate G or O."""
    nanos, picos = (costs.G, costs.Gp) if name == "G" else (costs.O, costs.Op)
    return Part(name, max(size - 1, 0), up(nanos, picos, size), costs)


def overhead(costs: Parameters, size: int) -> Parts:
    """How long a cpu is busy with a message."""
    return Part("o", 1, costs.o, costs), per_byte("O", costs, size)


def gap(costs: Parameters, size: int) -> Parts:
    """How long a side of a NIC is busy with a message."""
    return Part("g", 1, costs.g, costs), per_byte("G", costs, size)


def flight(costs: Parameters, size: int) -> Parts:
    """How long a message travels. If its bytes cost the same at G and at O, the part is that of G."""
    greater = max((per_byte("G", costs, size), per_byte("O", costs, size)), key=lambda part: part.nanos)
    return Part("o", 1, costs.o, costs), greater, latency(costs)


def latency(costs: Parameters) -> Part:
    return Part("L", 1, costs.L, costs)


def nanos_of(parts: Parts) -> int:
    return sum(part.nanos for part in parts)


@dataclass(frozen=True)
class Cause:
    """A cause of an action: an earlier action, the time of the cause, and the parts of the time since that earlier
    action."""

    kind: str
    action: Action
    time: int
    parts: Parts = ()


class Causes:
    """The actions of a whole run with their causes. `stories` has all operations of the run."""

    def __init__(self, schedule: Schedule, stories: Dict[Key, Story], costs: Costs) -> None:
        self.schedule, self.stories, self.costs = schedule, stories, costs
        # for each action, those that held its cpu and its side of a NIC last
        self._before: Dict[Action, Tuple[Optional[Action], Optional[Action]]] = {}
        self._holders: Dict[Tuple[str, int, int], Action] = {}
        self._happened: Set[Action] = set()
        self._missing = {key: len(op.needs) for key, op in schedule.ops.items()}
        self._needed_by: Dict[Tuple[Key, bool], List[Key]] = {}
        for key, op in schedule.ops.items():
            for number, by_end in op.needs:
                self._needed_by.setdefault(((key[0], number), by_end), []).append(key)
        self._run()

    def _run(self) -> None:
        """Replays all actions: of the possible ones, the one with the least time, class, rank and number is next."""
        heap = [self._at(self.first(key)) for key, missing in self._missing.items() if not missing]
        heapify(heap)
        while heap:
            time, kind, key = heappop(heap)
            action = kind, key
            self._happen(action)
            if max((cause.time for cause in self.of(action)), default=0) != time:
                raise misfit(key)
            for then in self._then(action):
                heappush(heap, self._at(then))
        for key, story in self.stories.items():
            for moment, action in ((story.timed.start, self.first(key)), (story.timed.end, self.last(key))):
                if (moment is None) == (action in self._happened):
                    raise misfit(key)
            if story.timed.end is not None and self.of((END, key))[0].time != story.timed.end:
                raise misfit(key)

    def _at(self, action: Action) -> Tuple[int, int, Key]:
        return self.time(action), action[0], action[1]

    def first(self, key: Key) -> Action:
        """The action that starts an operation."""
        return POST if self.schedule.ops[key].kind == "recv" else BEGIN, key

    def _happen(self, action: Action) -> None:
        """Records that an action now holds its cpu and its side of a NIC."""
        self._happened.add(action)
        kind, (rank, _) = action
        op = self.schedule.ops[action[1]]
        if kind in (ARRIVE, POST):
            return
        cpu, side = ("cpu", rank, op.cpu), ("rx" if kind == SERVE else "tx", rank, op.nic)
        has_side = op.kind != "calc"
        self._before[action] = self._holders.get(cpu), self._holders.get(side) if has_side else None
        self._holders[cpu] = action
        if has_side:
            self._holders[side] = action

    def _then(self, action: Action) -> Iterator[Action]:
        """The actions that this one makes possible."""
        kind, key = action
        if kind in (BEGIN, POST):
            yield from self._freed(key, False)
        if action == self.last(key):
            yield from self._freed(key, True)
        if kind == BEGIN and self.schedule.ops[key].kind == "send":
            yield ARRIVE, key
        partner = self.stories[key].timed.partner
        if kind == DATA and partner:
            yield SERVE, partner
        if kind in (ARRIVE, POST) and partner and (POST if kind == ARRIVE else ARRIVE, partner) in self._happened:
            sent, taken = (key, partner) if kind == ARRIVE else (partner, key)
            yield (SERVE, taken) if self.is_eager(sent) else (DATA, sent)

    def _freed(self, key: Key, by_end: bool) -> Iterator[Action]:
        """The first actions of the operations whose last missing requirement was the end or the start of this one."""
        for waiting in self._needed_by.get((key, by_end), ()):
            self._missing[waiting] -= 1
            if not self._missing[waiting]:
                yield self.first(waiting)

    def message(self, key: Key) -> Parameters:
        """The parameters of the message that a send sends or a receive takes."""
        op, partner = self.schedule.ops[key], self.stories[key].timed.partner
        if op.kind == "send":
            return self.costs.between(key[0], int(op.peer))
        if partner is None:
            raise misfit(key)
        return self.costs.between(partner[0], key[0])

    def is_eager(self, send: Key) -> bool:
        return self.message(send).is_eager(self.stories[send].bytes)

    def last(self, key: Key) -> Action:
        """The action that ends an operation."""
        kind = self.schedule.ops[key].kind
        if kind == "recv":
            return SERVE, key
        return DATA if kind == "send" and not self.is_eager(key) else BEGIN, key

    def time(self, action: Action) -> int:
        """When an action happens."""
        kind, key = action
        story = self.stories[key]
        if kind == ARRIVE:
            return self.time((BEGIN, key)) + nanos_of(self._way_in(key))
        at = story.timed.end if kind == END else story.timed.start if kind in (BEGIN, POST) else None
        if kind in (SERVE, DATA) and story.timed.end is not None:
            at = story.busy[-1][0]
        if at is None:
            raise misfit(key)
        return at

    def held(self, action: Action) -> int:
        """The bytes for which an action holds its cpu and its side of a NIC: one byte for the RTS of a rendezvous
        send."""
        return 1 if action[0] == BEGIN and not self.is_eager(action[1]) else self.stories[action[1]].bytes

    def on_cpu(self, action: Action) -> Parts:
        """The parts of the time for which an action holds its cpu."""
        op = self.schedule.ops[action[1]]
        return (Part("calc", 1, op.size),) if op.kind == "calc" else overhead(self.message(action[1]), self.held(action))

    def on_nic(self, action: Action) -> Parts:
        """The parts of the time for which an action holds its side of a NIC."""
        return gap(self.message(action[1]), self.held(action))

    def _way_in(self, send: Key) -> Parts:
        """The parts of the time from the start of a send to the arrival of its message or its RTS."""
        return flight(self.message(send), self.held((BEGIN, send)))

    def of(self, action: Action) -> List[Cause]:
        """All causes of an action. The action happens at the greatest of their times, or at 0 if it has no cause."""
        kind, key = action
        if kind == END:
            return [self._after(LAST, self.last(key), self.on_cpu(self.last(key)))]
        if kind == ARRIVE:
            return [self._after(MESSAGE, (BEGIN, key), self._way_in(key))]
        op = self.schedule.ops[key]
        found: List[Cause] = []
        if kind in (BEGIN, POST):
            found += [self._need((key[0], number), by_end) for number, by_end in op.needs]
        elif kind == DATA:
            found += self._clearance(key)
        elif kind == SERVE:
            found += self._delivery(key)
        cpu, side = self._before.get(action, (None, None))
        if cpu:
            found.append(self._after(CPU, cpu, self.on_cpu(cpu)))
        if side:
            found.append(self._after(NIC, side, self.on_nic(side)))
        return found

    def _after(self, kind: str, action: Action, parts: Parts) -> Cause:
        return Cause(kind, action, self.time(action) + nanos_of(parts), parts)

    def _need(self, key: Key, by_end: bool) -> Cause:
        last = self.last(key)
        return self._after(NEED_END, last, self.on_cpu(last)) if by_end else self._after(NEED_START, self.first(key), ())

    def _clearance(self, send: Key) -> List[Cause]:
        """The causes of Data: the RTS of the send and its receive are paired, and the CTS is back."""
        taken, back = self.stories[send].timed.partner, latency(self.message(send))
        if taken is None:
            raise misfit(send)
        return [self._after(REQUEST, (BEGIN, send), (*self._way_in(send), back)), self._after(RECEIVE, (POST, taken), (back,))]

    def _delivery(self, receive: Key) -> List[Cause]:
        """The causes of Serve: the message has arrived."""
        sent = self.stories[receive].timed.partner
        if sent is None:
            raise misfit(receive)
        if not self.is_eager(sent):
            return [self._after(BYTES, (DATA, sent), flight(self.message(sent), self.stories[sent].bytes))]
        return [self._after(MESSAGE, (BEGIN, sent), self._way_in(sent)), self._after(RECEIVE, (POST, receive), ())]


def misfit(key: Key) -> Misfit:
    return Misfit(f"the run is not of this schedule with these parameters: see operation {key[1]} of rank {key[0]}")
