"""The chain of causes of an operation: from each action back to the one that it waited for last. Nothing of it is
proved."""
from __future__ import annotations

from dataclasses import dataclass, field
from typing import Dict, Iterator, List, Optional, Tuple

from common.canonical import Key
from common.causes import BYTES, END, MESSAGE, REQUEST, Action, Cause, Causes, Part, per_byte
from common.command import Fault
from common.parameters import Parameters

# The longest period of repeated steps, and the least number of repetitions that are folded.
LONGEST_PERIOD, LEAST_TIMES = 8, 3
NAMES = ("L", "o", "g", "G", "O", "calc")


@dataclass
class Step:
    """An action with its time and its last cause, if it has one. `also` has the other causes of the same time. `slack`
    is the number of ns by which the next earlier cause precedes them."""

    action: Action
    time: int
    cause: Optional[Cause]
    also: List[Cause] = field(default_factory=list)
    slack: Optional[int] = None

    @property
    def took(self) -> int:
        """The ns from the action that is the cause to this one."""
        return sum(part.nanos for part in self.cause.parts) if self.cause else 0

    def is_unique(self) -> bool:
        """Whether there is only one cause, and its time depends on only one of the rates G and O."""
        return not self.also and not (self.cause and any(is_tied(self.cause, part) for part in self.cause.parts))


def is_tied(cause: Cause, part: Part) -> bool:
    """Whether the bytes of a message that travels cost the same at the rate G and at O."""
    if cause.kind not in (MESSAGE, REQUEST, BYTES) or part.name not in ("G", "O") or part.costs is None or not part.count:
        return False
    return per_byte("G", part.costs, part.count + 1).nanos == per_byte("O", part.costs, part.count + 1).nanos


def step_of(causes: Causes, action: Action) -> Step:
    found = causes.of(action)
    if not found:
        return Step(action, causes.time(action), None)
    cause = max(found, key=lambda it: it.time)
    also = [it for it in found if it.time == cause.time and (it.action, it.parts) != (cause.action, cause.parts)]
    rest = [it.time for it in found if it.time < cause.time]
    return Step(action, cause.time, cause, also, cause.time - max(rest) if rest else None)


def chain_to(causes: Causes, action: Action) -> List[Step]:
    """The steps from the start of the run to an action, or to the end of an operation. Their durations add up to its
    time."""
    steps = [step_of(causes, action)]
    while steps[-1].cause is not None:
        steps.append(step_of(causes, steps[-1].cause.action))
    steps.reverse()
    total = 0
    for step in steps:
        total += step.took
        if total != step.time:
            raise Fault(f"the chain does not add up to {step.time} at operation {step.action[1][1]} of rank {step.action[1][0]}")
    return steps


def last_end(causes: Causes) -> Optional[Key]:
    """The operation that ends last, the least one if several do; None if no operation ends."""
    ends = [(-story.timed.end, key) for key, story in causes.stories.items() if story.timed.end is not None]
    return min(ends)[1] if ends else None


def end_of(key: Key) -> Action:
    return END, key


@dataclass(frozen=True)
class Share:
    """The share of a parameter in a chain: its ns, how often or for how many bytes it counts, and the class of
    messages."""

    name: str
    costs: Optional[Parameters]
    count: int
    nanos: int


def shares_of(steps: List[Step]) -> List[Share]:
    """The share of each parameter in a chain. The shares add up to the time of the last step."""
    sums: Dict[Tuple[str, Optional[Parameters]], Tuple[int, int]] = {}
    for step in steps:
        for part in step.cause.parts if step.cause else ():
            count, nanos = sums.get((part.name, part.costs), (0, 0))
            sums[part.name, part.costs] = count + part.count, nanos + part.nanos
    shares = [Share(name, costs, count, nanos) for (name, costs), (count, nanos) in sums.items() if count]
    if sum(share.nanos for share in shares) != steps[-1].time:
        raise Fault(f"the shares do not add up to {steps[-1].time}")
    return sorted(shares, key=lambda share: NAMES.index(share.name))


@dataclass
class Fold:
    """Steps that repeat: those of the first period, and how many more periods follow (`more`), which take `took` ns
    until the step `until`."""

    steps: List[Step]
    more: int = 0
    took: int = 0
    until: Optional[Step] = None


def folded(causes: Causes, steps: List[Step]) -> Iterator[Fold]:
    """The steps in order, with repetitions of the same kinds of steps folded."""
    kinds = [(step.action[0], causes.schedule.ops[step.action[1]].kind, step.cause.kind if step.cause else "") for step in steps]
    at = 0
    while at < len(steps):
        period, times = longest_run(kinds, at)
        shown, end = steps[at:at + period], at + period * times
        rest = steps[at + period:end]
        yield Fold(shown, times - 1, sum(step.took for step in rest), rest[-1] if rest else None)
        at = end


def longest_run(kinds: List[Tuple[int, str, str]], at: int) -> Tuple[int, int]:
    """The period with which the steps repeat from `at` on, and the number of repetitions: the choice that covers the
    most steps."""
    best = 1, 1
    for period in range(1, LONGEST_PERIOD + 1):
        end = at + period
        while end < len(kinds) and kinds[end] == kinds[end - period]:
            end += 1
        times = (end - at) // period
        if times >= LEAST_TIMES and period * times > best[0] * best[1]:
            best = period, times
    return best
