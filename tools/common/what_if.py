"""Runs a schedule with other values of one parameter, to find the finish for each. Nothing of it is proved."""
from __future__ import annotations

import tempfile
from dataclasses import asdict, dataclass, replace
from typing import Dict, List, Optional, Tuple

from common import program

from common.description import lines_of
from common.limits import MOST_PARAMETER
from common.parameters import RATES, Alike, Machine, Parameters, words_of
from common.printed_run import first_line
from common.whole import Whole

PICOS = 1000


@dataclass(frozen=True)
class Knob:
    """A parameter of a class of messages, with its value: S in bytes, G and O in ps per byte, all others in ns."""

    name: str
    number: int
    value: int

    @property
    def most(self) -> int:
        return MOST_PARAMETER[self.name] * PICOS + PICOS - 1 if self.name in RATES else MOST_PARAMETER[self.name]

    def text(self, value: int) -> str:
        """A value as text. A rate is in ns per byte."""
        return f"{value // PICOS}.{value % PICOS:03}" if self.name in RATES else str(value)

    def around(self) -> List[int]:
        """Values around the present one, and that one."""
        at = self.value
        found = {0, at // 2, at - at // 10, at - 1, at, at + 1, at + at // 10, 2 * at} if at else {0, 1, 10, 100, 1000}
        return sorted(value for value in found if 0 <= value <= self.most)


def value_of(costs: Parameters, name: str) -> int:
    numbers = asdict(costs)
    return int(numbers[name] * PICOS + numbers[RATES[name]] if name in RATES else numbers[name])


def changed(costs: Parameters, name: str, value: int) -> Parameters:
    """The same parameters with one value changed. A rate is in ps per byte."""
    return replace(costs, **({name: value // PICOS, RATES[name]: value % PICOS} if name in RATES else {name: value}))


class Reruns:
    """The finish of a schedule for other values of a parameter; None if an operation is stuck or goal refuses the
    value."""

    def __init__(self, whole: Whole) -> None:
        self.whole = whole
        costs = whole.costs
        self.classes = costs.classes if isinstance(costs, Machine) else [costs.parameters] if isinstance(costs, Alike) else []
        self.seen: Dict[Knob, Dict[int, Optional[int]]] = {}

    def knobs(self, names: str) -> List[Knob]:
        """The parameters with these names, for each class that some message has."""
        used = {self.whole.costs.between(key[0], int(op.peer)) for key, op in self.whole.schedule.ops.items() if op.kind == "send"}
        return [Knob(name, number, value_of(costs, name)) for number, costs in enumerate(self.classes) if costs in used for name in names]

    def finish(self, knob: Knob, value: int) -> Optional[int]:
        seen = self.seen.setdefault(knob, {})
        if value not in seen:
            seen[value] = self._finish(knob, value)
        return seen[value]

    def _finish(self, knob: Knob, value: int) -> Optional[int]:
        whole = self.whole
        classes = [changed(costs, knob.name, value) if number == knob.number else costs for number, costs in enumerate(self.classes)]
        if not isinstance(whole.costs, Machine):
            return finish_of(program.call(whole.goal, ["knots", whole.source, *words_of(asdict(classes[0]))], whole.text))
        with tempfile.NamedTemporaryFile("w", encoding="utf-8") as file:
            file.writelines(line + "\n" for line in lines_of(replace(whole.costs, classes=classes)))
            file.flush()
            return finish_of(program.call(whole.goal, ["nodes", whole.source, file.name], whole.text))

    def is_monotone(self, knob: Knob) -> bool:
        """Whether in all runs so far a greater value never gave an earlier finish."""
        found = [finish for _, finish in sorted(self.seen.get(knob, {}).items()) if finish is not None]
        return found == sorted(found)


def finish_of(answer: program.Answer) -> Optional[int]:
    """The finish of an answer; None if an operation is stuck or the budget is exceeded."""
    if answer.status == program.REFUSED and "budget" in answer.err:
        return None
    program.expect(answer, program.DONE, program.STUCK)
    run = first_line(answer.out.split("\n", 1)[0])
    return None if run.stuck else run.finish


def curve(reruns: Reruns, knob: Knob) -> List[Tuple[int, Optional[int]]]:
    """The finish at values around the present one. For S: at the present value, with no eager messages, and with only
    eager ones."""
    values = knob.around()
    if knob.name == "S":
        values = sorted({0, knob.value, max(reruns.whole.schedule.sizes.values(), default=0)})
    return [(value, reruns.finish(knob, value)) for value in values]


@dataclass(frozen=True)
class Reached:
    """A value whose finish is at most the wanted one. `past` is the next value, whose finish exceeds it; None if
    `value` is the greatest possible."""

    value: int
    finish: int
    past: Optional[int]


def reach(reruns: Reruns, knob: Knob, wanted: int) -> Optional[Reached]:
    """By bisection, a value with a finish of at most the wanted one, while the next value exceeds it; None if 0
    exceeds it."""

    def fits(value: int) -> bool:
        finish = reruns.finish(knob, value)
        return finish is not None and finish <= wanted

    low, high = (knob.value, knob.value + 1) if fits(knob.value) else (0, knob.value)
    if not fits(low):
        return None
    while fits(high):
        if high >= knob.most:
            return Reached(high, reruns.finish(knob, high) or 0, None)
        low, high = high, min(2 * high, knob.most)
    while high - low > 1:
        middle = (low + high) // 2
        low, high = (middle, high) if fits(middle) else (low, middle)
    return Reached(low, reruns.finish(knob, low) or 0, high)
