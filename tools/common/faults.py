"""Finds faults of a schedule from its text alone, without a run. Nothing of it is proved."""
from __future__ import annotations

from collections import defaultdict, deque
from dataclasses import dataclass, field
from typing import DefaultDict, Dict, Iterable, Iterator, List, Optional, Sequence, Set, Tuple

from common.canonical import Key, Op, Schedule

ANY = "any"
# The search for the most similar operation compares at most this many candidates per kind of match.
MOST_NEAR = 1000
# The source and the tag that a receive names, or those of a message (a channel).
Pattern = Tuple[str, str]


@dataclass
class Finding:
    """A finding: its text, the operations that it concerns, and related operations, each with a text."""

    what: str
    keys: List[Key]
    others: List[Tuple[str, Key]] = field(default_factory=list)


def fits(pattern: Pattern, channel: Pattern) -> bool:
    """Whether a receive with this pattern can take a message of this channel."""
    return pattern[0] in (ANY, channel[0]) and pattern[1] in (ANY, channel[1])


class Matching:
    """A maximum matching of sends and receives by ranks and tags. It ignores the order of operations: sends with the
    same ranks and tag are interchangeable, and so are receives."""

    def __init__(self, schedule: Schedule) -> None:
        self.ops = schedule.ops
        self.sends: DefaultDict[int, DefaultDict[Pattern, List[Key]]] = defaultdict(lambda: defaultdict(list))
        self.receives: DefaultDict[int, DefaultDict[Pattern, List[Key]]] = defaultdict(lambda: defaultdict(list))
        for key, op in schedule.ops.items():
            if op.kind == "send":
                self.sends[int(op.peer)][str(key[0]), op.tag].append(key)
            elif op.kind == "recv":
                self.receives[key[0]][op.peer, op.tag].append(key)
        # the pairs that are certain, up to the order within a channel; the sends and the receives without a partner
        self.pairs: List[Tuple[Key, Key]] = []
        self.lost: List[Key] = []
        self.starved: List[Key] = []
        for rank in sorted(self.sends.keys() | self.receives.keys()):
            self._match(self.sends[rank], self.receives[rank])

    def _match(self, sends: Dict[Pattern, List[Key]], receives: Dict[Pattern, List[Key]]) -> None:
        """Matches the sends to one rank with the receives of this rank."""
        wild = [pattern for pattern in receives if ANY in pattern]
        flow = Flow({channel: len(keys) for channel, keys in sends.items()}, {pattern: len(keys) for pattern, keys in receives.items()})
        for channel, keys in sends.items():
            self.lost += keys[len(keys) - flow.free[channel]:]
            if channel in receives and not any(fits(pattern, channel) for pattern in wild):
                self.pairs += zip(keys, receives[channel])
        for pattern, keys in receives.items():
            self.starved += keys[len(keys) - flow.wanted[pattern]:]
            if ANY in pattern and len(keys) == 1:
                # (only one message fits the receive, and no other pattern fits this message)
                taken = [key for channel in sends if fits(pattern, channel) for key in sends[channel]]
                if len(taken) == 1 and sum(fits(other, (str(taken[0][0]), self.ops[taken[0]].tag)) for other in receives) == 1:
                    self.pairs.append((taken[0], keys[0]))

    def competing(self) -> Iterator[Finding]:
        """Receives with different patterns that can take the same message: the run decides which of them takes it."""
        for rank, receives in sorted(self.receives.items()):
            wild = [pattern for pattern in receives if ANY in pattern]
            for channel, keys in self.sends[rank].items():
                able = [pattern for pattern in (channel, *wild) if pattern in receives and fits(pattern, channel)]
                if len(able) > 1:
                    first = [receives[pattern][0] for pattern in able]
                    yield Finding("these can take the same message, so the order of arrival decides:", first, [("the message", keys[0])])


class Flow:
    """A maximum flow: how many messages of each channel the receives of each pattern take. `free` has the messages of
    each channel that are left, and `wanted` the receives of each pattern without a message."""

    def __init__(self, free: Dict[Pattern, int], wanted: Dict[Pattern, int]) -> None:
        self.free, self.wanted = free, wanted
        self.taken: DefaultDict[Pattern, DefaultDict[Pattern, int]] = defaultdict(lambda: defaultdict(int))
        # First the patterns with fewest wildcards take what they can. Then augmenting paths reassign messages.
        for pattern in sorted(wanted, key=lambda it: (it.count(ANY), it)):
            for channel in self.channels_of(pattern):
                self.take(pattern, channel, min(wanted[pattern], free[channel]))
        for pattern in wanted:
            while wanted[pattern] and any(free.values()) and self.move(pattern):
                pass

    def channels_of(self, pattern: Pattern) -> Sequence[Pattern]:
        if ANY not in pattern:
            return [pattern] if pattern in self.free else []
        return [channel for channel in self.free if fits(pattern, channel)]

    def take(self, pattern: Pattern, channel: Pattern, count: int) -> None:
        self.wanted[pattern] -= count
        self.free[channel] -= count
        self.taken[channel][pattern] += count

    def move(self, pattern: Pattern) -> bool:
        """Finds another message for a pattern by an augmenting path, on which other patterns switch to other messages.
        Returns whether there is one."""
        came_by: Dict[Pattern, Tuple[Pattern, Optional[Pattern]]] = {}
        ahead: deque[Tuple[Pattern, Optional[Pattern]]] = deque([(pattern, None)])
        while ahead:
            one, given_up = ahead.popleft()
            for channel in self.channels_of(one):
                if channel in came_by:
                    continue
                came_by[channel] = one, given_up
                if self.free[channel]:
                    self.free[channel] -= 1
                    self.wanted[pattern] -= 1
                    at: Optional[Pattern] = channel
                    while at is not None:
                        one, given_up = came_by[at]
                        self.taken[at][one] += 1
                        if given_up is not None:
                            self.taken[given_up][one] -= 1
                        at = given_up
                    return True
                ahead.extend((other, channel) for other, count in self.taken[channel].items() if count)
        return False


class Nearest:
    """Finds, for an unmatched operation, the most similar unmatched operation of the other kind."""

    def __init__(self, ops: Dict[Key, Op], keys: Iterable[Key]) -> None:
        self.ops = ops
        self.by: DefaultDict[Tuple[str, str], List[Key]] = defaultdict(list)
        for key in keys:
            source, target = ends_of(ops[key], key)
            for place in {(source, target), (ANY, target), (source, ANY)}:
                self.by[place].append(key)

    def of(self, key: Key) -> Optional[Tuple[str, Key]]:
        """How the most similar operation differs, in words, and its key; None if there is no candidate."""
        source, target = ends_of(self.ops[key], key)
        places = [(source, target), (source, ANY), (ANY, target)]
        near = [other for place in places for other in self.by.get(place, ())[:MOST_NEAR]]
        if not near:
            return None
        best = min(near, key=lambda other: (sum(cost for cost, _ in self.differences(key, other)), other))
        texts = [text for _, text in self.differences(key, best)]
        return f"nearest, with {' and '.join(texts)}", best

    def differences(self, key: Key, other: Key) -> Iterator[Tuple[int, str]]:
        """The differences of two operations, each with its weight and in words."""
        one, its = self.ops[key], self.ops[other]
        for here, there, what in zip(ends_of(one, key), ends_of(its, other), ("from", "to")):
            if ANY not in (here, there) and here != there:
                yield 4, f"another rank, {what} {there}"
        if ANY not in (one.tag, its.tag) and one.tag != its.tag:
            yield 2, f"another tag, {its.tag}"
        if one.size != its.size:
            yield 1, f"another size, {its.size} bytes"


def ends_of(op: Op, key: Key) -> Tuple[str, str]:
    """The source and the target of the message of an operation."""
    return (str(key[0]), op.peer) if op.kind == "send" else (op.peer, str(key[0]))


def left_over(matching: Matching) -> Iterator[Finding]:
    """Sends without a receive and receives without a send."""
    for keys, others, what in ((matching.starved, matching.lost, "no send fits:"), (matching.lost, matching.starved, "no receive fits:")):
        nearest = Nearest(matching.ops, others)
        for key in sorted(keys):
            near = nearest.of(key)
            yield Finding(what, [key], [near] if near else [])


def too_small(matching: Matching) -> Iterator[Finding]:
    """Receives that are smaller than their message."""
    for send, receive in matching.pairs:
        if matching.ops[send].size > matching.ops[receive].size:
            yield Finding("smaller than its message:", [receive], [("the message", send)])


def rings(ops: Dict[Key, Op], pairs: Iterable[Tuple[Key, Key]], most_eager: int) -> Iterator[List[Key]]:
    """Cycles of operations that wait for one another: for each knot (a strongly connected component), a shortest cycle.
    A message of more than `most_eager` bytes waits for its receive."""
    place = {key: 2 * number for number, key in enumerate(ops)}
    keys = list(ops)
    # (each operation has two nodes, its start and its end; an edge leads to a node that must come before)
    before: List[List[int]] = [[] for _ in range(2 * len(ops))]
    for key, op in ops.items():
        before[place[key] + 1].append(place[key])
        before[place[key]] += [place[key[0], number] + by_end for number, by_end in op.needs]
    for send, receive in pairs:
        before[place[receive] + 1].append(place[send])
        if ops[send].size > most_eager:
            before[place[send] + 1].append(place[receive])
    for knot in knots(before):
        ring = shortest(before, knot)
        found = [keys[at // 2] for at in ring]
        once = [key for number, key in enumerate(found) if key != found[number - 1] or len(found) == 1]
        least = once.index(min(once))
        yield once[least:] + once[:least]


def knots(before: List[List[int]]) -> Iterator[Set[int]]:
    """The strongly connected components with more than one node, by Tarjan's algorithm."""
    count = 0
    number, low = [0] * len(before), [0] * len(before)
    is_open = [False] * len(before)
    path: List[int] = []
    for root in range(len(before)):
        if number[root]:
            continue
        ahead = [(root, 0)]
        while ahead:
            at, edge = ahead.pop()
            if edge == 0:
                count += 1
                number[at] = low[at] = count
                path.append(at)
                is_open[at] = True
            elif is_open[before[at][edge - 1]]:
                low[at] = min(low[at], low[before[at][edge - 1]])
            while edge < len(before[at]) and number[before[at][edge]]:
                if is_open[before[at][edge]]:
                    low[at] = min(low[at], number[before[at][edge]])
                edge += 1
            if edge < len(before[at]):
                ahead += [(at, edge + 1), (before[at][edge], 0)]
            elif low[at] == number[at]:
                knot = tail(path, at)
                del path[-len(knot):]
                for one in knot:
                    is_open[one] = False
                if len(knot) > 1:
                    yield set(knot)


def tail(path: List[int], at: int) -> List[int]:
    """The end of the path, from this node on."""
    begin = len(path) - 1
    while path[begin] != at:
        begin -= 1
    return path[begin:]


def shortest(before: List[List[int]], knot: Set[int]) -> List[int]:
    """A shortest cycle through the least node of a knot."""
    start = min(knot)
    came: Dict[int, int] = {}
    ahead = deque([start])
    while start not in came:
        at = ahead.popleft()
        for then in before[at]:
            if then in knot and then not in came:
                came[then] = at
                ahead.append(then)
    ring = [came[start]]
    while ring[-1] != start:
        ring.append(came[ring[-1]])
    return ring[::-1]
