"""Where two algorithms cross: the neighbouring values of an axis between which the faster one changes.

Nothing of it is proved."""
from __future__ import annotations

import itertools
from typing import Dict, Iterator, List, Sequence, Tuple

from common.command import Fault
from common.grid import Axes, Point, with_options_taken
from common.parameters import RATES
from common.runs import Result, Runs

WHOLE = ("ranks", "size", "root", "segments", "node", "sum-ps", "L", "o", "g", "S")
Pair = Tuple[Result, Result]


def algorithms_of(text: str) -> Tuple[str, str]:
    names = text.split(",")
    if len(names) != 2 or names[0] == names[1] or "" in names:
        raise Fault(f"--cross {text}: give two different algorithms, as bcast,bcast-chain")
    return names[0], names[1]


def check_axis(axes: Axes, x_name: str) -> None:
    if x_name in RATES or x_name not in WHOLE or len(axes.get(x_name, ())) < 2:
        raise Fault(f"--x {x_name}: give an axis that has several whole numbers in this grid")


class Crossing:
    """The runs of two algorithms over the axis `x_name`. All other axes have the values of `others`."""

    def __init__(self, runs: Runs, names: Tuple[str, str], x_name: str, others: Point) -> None:
        self.runs, self.names, self.x_name, self.others = runs, names, x_name, others
        self.found: Dict[int, Pair] = {}

    def points(self, x: int) -> Tuple[Point, Point]:
        """The points of the two algorithms at a value of the axis."""
        one, other = ({**self.others, self.x_name: str(x), "algorithm": name} for name in self.names)
        return with_options_taken(one), with_options_taken(other)

    def run(self, values: Sequence[int]) -> None:
        """Runs both algorithms at these values, in parallel. Raises a Fault if a run is refused or stuck."""
        values = [x for x in values if x not in self.found]
        points = [point for x in values for point in self.points(x)]
        results = []
        for point, result in zip(points, self.runs.of(points)):
            if result.fault or result.stuck:
                where = " ".join(f"{axis}={value}" for axis, value in point.items() if value != "")
                raise Fault(f"--cross cannot compare the algorithms: at {where}: {result.fault or f'{result.stuck} operations are stuck'}")
            results.append(result)
        self.found.update({x: (results[2 * at], results[2 * at + 1]) for at, x in enumerate(values)})

    def is_first_ahead(self, x: int) -> bool:
        """Whether the first algorithm has the lesser finish."""
        self.run([x])
        return bool(self.found[x][0].finish < self.found[x][1].finish)  # type: ignore[operator]

    def crossings(self, values: Sequence[int]) -> Iterator[Tuple[int, int]]:
        """Where the faster algorithm changes between two neighbouring values: for each such pair, the two successive
        integers between which it changes."""
        self.run(values)
        for low, high in zip(values, values[1:]):
            before = self.is_first_ahead(low)
            if before == self.is_first_ahead(high):
                continue
            while high - low > 1:
                middle = (low + high) // 2
                low, high = (middle, high) if self.is_first_ahead(middle) == before else (low, middle)
            yield low, high

    def faster(self, x: int) -> str:
        """Which algorithm is faster at a value, as the beginning of a sentence."""
        one, other = self.found[x]
        if one.finish == other.finish:
            return f"{self.names[0]} and {self.names[1]} take the same time"
        return f"{self.names[0] if self.is_first_ahead(x) else self.names[1]} is faster"


def others_of(axes: Axes, x_name: str) -> List[Point]:
    """All combinations of the values of the axes other than x and the algorithm. Both of these are present but empty,
    so that the order of the axes is kept."""
    names = [axis for axis in axes if axis not in (x_name, "algorithm")]
    points = []
    for values in itertools.product(*(axes[axis] for axis in names)):
        chosen = dict(zip(names, values))
        points.append({axis: chosen.get(axis, "") for axis in axes})
    return points
