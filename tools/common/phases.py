"""The times at which each operation of a run waits, keeps a cpu busy, or is stuck. Nothing of it is proved.

A printed run has the start and the end of each operation. The ready time of an operation follows from what it requires,
and the time for which it holds its cpu follows from the parameters. The rest of its time is waiting.
"""
from dataclasses import dataclass, field
from heapq import heappop, heappush
from typing import Collection, Dict, Iterable, Iterator, List, Optional, Tuple

from common.canonical import Key, Op, Schedule
from common.parameters import Costs, Parameters
from common.printed_run import Run, Timed

Span = Tuple[int, int]


class Misfit(ValueError):
    """The run is not that of the schedule with these parameters."""


@dataclass
class Story:
    """An operation with its times. A span is a pair of a begin and an end, in nanoseconds.

    `busy` has the spans for which it holds its cpu. A rendezvous send has two: first for its RTS, then for its data.
    `sides` has the spans for which it holds a side of its NIC: a send the sending side, a receive the receiving side.
    `stuck_from` is the time from which a stuck operation that has begun cannot go on. `never` says that it never
    begins. `bytes` is the size of the message.
    """

    key: Key
    op: Op
    timed: Timed
    bytes: int
    ready: Optional[int]
    waits: List[Span] = field(default_factory=list)
    busy: List[Span] = field(default_factory=list)
    sides: List[Span] = field(default_factory=list)
    stuck_from: Optional[int] = None
    never: bool = False
    reason: str = ""

    @property
    def begin(self) -> Optional[int]:
        """The first time of the operation, or None."""
        spans = self.waits + self.busy
        return min((span[0] for span in spans), default=self.stuck_from)

    @property
    def wait(self) -> int:
        """How long it waits, as `goal waits` counts it: from its ready time to its last action; 0 if it does not
        end."""
        return 0 if self.timed.end is None or self.ready is None else self.busy[-1][0] - self.ready

    @property
    def leaves(self) -> int:
        """The time at which its message leaves: the end of the last span for which it holds its cpu."""
        return self.busy[-1][1]

    @property
    def is_unread(self) -> bool:
        """Whether it is an unmatched send: its message is sent, and no receive takes it."""
        return self.op.kind == "send" and self.timed.end is not None and self.timed.partner is None


def ready_time(key: Key, ops: Dict[Key, Op], timed: Dict[Key, Timed]) -> Optional[int]:
    """The time at which all that it requires has happened; None if that never happens."""
    moments = [
        timed[key[0], number].end if by_end else timed[key[0], number].start for number, by_end in ops[key].needs
    ]
    known = [moment for moment in moments if moment is not None]
    return max(known, default=0) if len(known) == len(moments) else None


def story_of(key: Key, schedule: Schedule, run: Run, costs: Costs) -> Story:
    """The story of an operation of a run with these costs."""
    op, timed = schedule.ops[key], run.timed[key]
    ready = ready_time(key, schedule.ops, run.timed)
    story = Story(key, op, timed, op.size, ready, reason=run.reasons.get(key, ""))
    if timed.start is None or ready is None:
        story.never = True
    elif op.kind == "calc":
        add_wait(story, ready, timed.start)
        story.busy.append((timed.start, end_of(story)))
    elif op.kind == "send":
        add_send(story, ready, timed.start, costs.between(key[0], int(op.peer)))
    else:
        add_receive(story, timed.start, schedule.sizes, costs)
    return story


def end_of(story: Story) -> int:
    """The end of a calc or an eager send, which ends if it begins."""
    if story.timed.end is None:
        raise Misfit(f"the run is not of these parameters: see operation {story.key[1]} of rank {story.key[0]}")
    return story.timed.end


def add_wait(story: Story, begin: int, end: int) -> None:
    """Adds a wait, unless it is empty. A wait that would end before it begins shows that the run has other
    parameters."""
    if end < begin:
        raise Misfit(f"the run is not of these parameters: see operation {story.key[1]} of rank {story.key[0]}")
    if begin < end:
        story.waits.append((begin, end))


def add_send(story: Story, ready: int, start: int, parameters: Parameters) -> None:
    """Adds the spans of a send that begins at `start`."""
    add_wait(story, ready, start)
    if parameters.is_eager(story.bytes):
        story.busy.append((start, end_of(story)))
        story.sides.append((start, start + parameters.gap(story.bytes)))
        return
    end, asked = story.timed.end, start + parameters.over(1)
    story.busy.append((start, asked))
    story.sides.append((start, start + parameters.gap(1)))
    if end is None:
        story.stuck_from = asked
    else:
        handed = end - parameters.over(story.bytes)
        add_wait(story, asked, handed)
        story.busy.append((handed, end))
        story.sides.append((handed, handed + parameters.gap(story.bytes)))


def add_receive(story: Story, start: int, sizes: Dict[Key, int], costs: Costs) -> None:
    """Adds the spans of a receive that is posted at `start`, and the size of its message."""
    end, partner = story.timed.end, story.timed.partner
    if end is None:
        story.stuck_from = start
        return
    if partner is None or partner not in sizes:
        raise Misfit(f"the run is not of this schedule: operation {story.key[1]} of rank {story.key[0]} has another partner")
    story.bytes = sizes[partner]
    parameters = costs.between(partner[0], story.key[0])
    taken = end - parameters.over(story.bytes)
    add_wait(story, start, taken)
    story.busy.append((taken, end))
    story.sides.append((taken, taken + parameters.gap(story.bytes)))


@dataclass
class Window:
    """A part of a run: its ranks, in order, and its times. `until` is None if it has no end."""

    ranks: Collection[int]
    since: int = 0
    until: Optional[int] = None

    def has(self, story: Story) -> bool:
        """Whether a part of the operation is in the window, also if that is only a wait, or if it never begins."""
        if story.begin is None:
            return self.until is None
        return self.meets(story.begin, story.timed.end)

    def sees(self, story: Story) -> bool:
        """Whether the operation does more than wait in the window: it acts there, is stuck there, or never begins."""
        if story.never:
            return self.until is None
        stuck = story.stuck_from is not None and self.meets(story.stuck_from, None)
        return stuck or any(self.meets(begin, end) for begin, end in story.busy)

    def meets(self, begin: int, end: Optional[int]) -> bool:
        return (end is None or end >= self.since) and (self.until is None or begin <= self.until)


def rows_of(spans: Iterable[Tuple[int, float]]) -> Iterator[int]:
    """For each span of time, the first row that is free then. The spans are in the order of their begins."""
    taken: List[Tuple[float, int]] = []
    free: List[int] = []
    count = 0
    for begin, end in spans:
        while taken and taken[0][0] <= begin:
            heappush(free, heappop(taken)[1])
        row = heappop(free) if free else count
        count = max(count, row + 1)
        heappush(taken, (end, row))
        yield row


def stories_of(schedule: Schedule, run: Run, costs: Costs, window: Window) -> Dict[Key, Story]:
    """The stories, by key, of the operations in a window. The schedule and the run have only the operations of its
    ranks."""
    for key in schedule.ops.keys() ^ run.timed.keys():
        raise Misfit(f"the run is not of this schedule: see operation {key[1]} of rank {key[0]}")
    stories = (story_of(key, schedule, run, costs) for key in schedule.ops)
    return {story.key: story for story in stories if window.has(story)}
