"""The grid of a sweep: reads its axes from the command line, and makes its points. Nothing of it is proved."""
from __future__ import annotations

import itertools
import re
import sys
from decimal import Decimal
from typing import Dict, Iterable, List, Optional, Tuple

from algorithms import own
from algorithms.table import ALGORITHMS
from common import command
from common.description import PLACEMENTS, cards_of, is_description, read_cluster
from common.description import scale_of as scale_of_text
from common.loading import text_of
from common.parameters import DECIMALS, DEFAULTS, MOST_DECIMALS, RATES, scale_for, scaled_options
from common.limits import KINDS, MOST_BYTES, MOST_RANKS, ROOTED

OPTIONS: Dict[str, Tuple[str, ...]] = {
    **{kind: ("root",) if kind in ROOTED else () for kind in KINDS},
    **{it.name: it.options for it in ALGORITHMS},
}
MADE_BY = ("algorithm", "ranks", "size", "root", "segments", "node", "sum-ps")
NAMES = ("schedule", "machine", "algorithm")
PARAMETERS = ("L", "o", "g", "G", "O", "S")
ON_MACHINES = ("cards", "placement")
AXES = ("schedule",) + MADE_BY + ("machine",) + ON_MACHINES + PARAMETERS
UNITS = {"size": "size", "S": "size", "L": "ns", "o": "ns", "g": "ns", "G": "ns per byte", "O": "ns per byte",
         "sum-ps": "ps per byte"}  # fmt: skip
MOST_POINTS = 100000
# KINDs of `gen` whose messages have the same size for any number of slots, and the algorithms to use instead.
ONE_SIZE = {"gather": "gather-tree", "scatter": "scatter-tree"}
# The values of axes that are not given.
TAKEN = {"root": "0", "segments": "1", "node": "1", "sum-ps": "0", **{name: str(DEFAULTS[name]) for name in PARAMETERS}}
# The least and the greatest value of the axes that make schedules.
LIMITED: Dict[str, Tuple[int, Optional[int], str]] = {
    "ranks": (1, MOST_RANKS, "ranks"), "size": (0, MOST_BYTES, "bytes"), "root": (0, MOST_RANKS - 1, "a rank"),
    "segments": (1, MOST_RANKS, "segments"), "node": (1, MOST_RANKS, "ranks"), "sum-ps": (0, 10**9, "ps per byte")}  # fmt: skip
Point = Dict[str, str]
Axes = Dict[str, List[str]]


def number_of(axis: str, text: str) -> Decimal:
    """The number that a value of an axis is."""
    found = re.fullmatch(r"(\d{1,20}(?:\.\d{1,6})?)([KM]?)", text)
    if not found or ("." in text and axis not in RATES) or (found[2] and axis not in ("size", "S")):
        unit = {"size": "bytes, as 4096, 4K or 16M", "S": "bytes, as 65535 or 64K"}.get(axis, UNITS.get(axis, axis))
        more = f", with up to {MOST_DECIMALS} decimals" if axis in RATES else ""
        raise command.Fault(f"{axis}: {text} is not a number of {unit}{more}")
    return Decimal(found[1]) * {"": 1, "K": 1024, "M": 1024**2}[found[2]]


def range_of(axis: str, text: str) -> List[Decimal]:
    """The numbers that one word of an axis gives: a number, or a range A..B+STEP or A..BxFACTOR."""
    found = re.fullmatch(r"([^.]+(?:\.\d+)?)\.\.(.+?)([+x])(.+)", text)
    if not found:
        return [number_of(axis, text)]
    low, high = number_of(axis, found[1]), number_of(axis, found[2])
    if not re.fullmatch(r"\d+(\.\d+)?[KM]?", found[4]):
        raise command.Fault(f"{axis}: {found[4]} is not a step: write A..B+STEP or A..BxFACTOR")
    step = number_of(axis, found[4]) if found[3] == "+" else Decimal(found[4])
    if step <= (0 if found[3] == "+" else 1) or (found[3] == "x" and low == 0):
        raise command.Fault(f"{axis}: {text} does not rise: a step is above 0, a factor above 1 and its range above 0")
    numbers: List[Decimal] = []
    while low <= high and len(numbers) < MOST_POINTS:
        numbers.append(low)
        low = low + step if found[3] == "+" else low * step
    return numbers


def rate_of(number: Decimal, part: str) -> str:
    """A rate in ns per byte as text, with three decimals, or more if the given value or range has more."""
    given = part.split("x")[0] if ".." in part else part
    decimals = max(DECIMALS, *(len(found) for found in re.findall(r"(?<!\.)\.(\d+)", given)), 0)
    rounded = f"{number:.{decimals}f}"
    while len(rounded.partition(".")[2]) > DECIMALS and rounded.endswith("0"):
        rounded = rounded[:-1]
    return str(int(number)) if number == int(number) else rounded


def values_of(axis: str, text: str) -> List[str]:
    """All values of an axis, as goal takes them."""
    parts = text.split(",")
    if axis in NAMES + ON_MACHINES:
        values = parts
    else:
        numbers = [(number, part) for part in parts for number in range_of(axis, part)]
        check_limits(axis, [number for number, _ in numbers])
        values = [rate_of(number, part) if axis in RATES else str(int(number)) for number, part in numbers]
    if "" in values or not values:
        raise command.Fault(f"{axis}: a value is empty: write {axis}=VALUE,VALUE..")
    return list(dict.fromkeys(values))


def check_limits(axis: str, numbers: Iterable[Decimal]) -> None:
    """Refuses values of an axis that are outside the limits of schedules."""
    low, high, unit = LIMITED.get(axis, (0, None, ""))
    for number in numbers:
        if high is not None and not low <= number <= high:
            raise command.Fault(f"{axis}: {number} is not {command.number_of(unit)} from {low} to {high}")


def axes_of(words: Iterable[str]) -> Axes:
    """The axes that the arguments AXIS=VALUES give, in their order."""
    axes: Axes = {}
    for word in words:
        axis, equals, text = word.partition("=")
        if not equals or axis not in AXES:
            raise command.Fault(f"{word} is not an axis: write AXIS=VALUES, AXIS one of {' '.join(AXES)}")
        if axis in axes:
            raise command.Fault(f"{axis} is given twice: write all its values in one word")
        axes[axis] = values_of(axis, text)
    check_axes(axes)
    return axes


def check_axes(axes: Axes) -> None:
    if "schedule" in axes:
        wrong = [axis for axis in MADE_BY if axis in axes]
        if wrong:
            raise command.Fault(f"{wrong[0]} is of schedules that are made, and schedule= names files: leave out one of them")
    elif not all(axis in axes for axis in MADE_BY[:3]):
        raise command.Fault("give the axes algorithm, ranks and size, or schedule")
    for name in axes.get("algorithm", ()):
        if own.is_own(name):
            OPTIONS[name] = own.own_algorithm(name)[1]
        if name in ONE_SIZE:
            why = "has BYTES in each message, for any number of items"
            raise command.Fault(f"{name} of `goal gen` {why}: give {ONE_SIZE[name]}")
        if name not in OPTIONS:
            where = "see `tools/schedule --list` and `goal gen`, or give FILE.py:NAME"
            raise command.Fault(f"{name} is not an algorithm: {where}")
    check_machines(axes)
    files = [name for axis in ("schedule", "machine") for name in axes.get(axis, ())]
    if sum(command.source(name) == command.STANDARD_INPUT for name in files) > 1:
        raise command.Fault("only one file can be standard input: give the others by name")
    if "machine" in axes and any(axis in axes for axis in PARAMETERS):
        raise command.Fault("a machine has its own parameters: leave out L, o, g, G, O and S")


def check_machines(axes: Axes) -> None:
    for axis in ON_MACHINES:
        if axis in axes and "machine" not in axes:
            raise command.Fault(f"{axis} is an axis of runs on a machine: give machine=FILE too")
    for cards in axes.get("cards", ()):
        cards_of(cards)
    for placement in axes.get("placement", ()):
        if placement not in PLACEMENTS:
            raise command.Fault(f"{placement} is not a placement: give {' or '.join(PLACEMENTS)}")


def note_on_cards(axes: Axes, scale: int) -> None:
    """Prints a note if several ranks are on one node and no cards are given. Machines are read with times `scale` times
    as long."""
    for name in axes.get("machine", ()) if "cards" not in axes else ():
        cluster = read_cluster(name, scale)
        if cluster.cards is None and cluster.has_neighbours():
            note = "each rank has a card of its own here; cards=1 lets the ranks of a node share one"
            print(f"sweep: {note}", file=sys.stderr)
            return


def with_options_taken(point: Point) -> Point:
    """The point, with the options emptied that its algorithm does not take."""
    for option in MADE_BY[3:]:
        if option in point and option.replace("-", "_") not in OPTIONS[point["algorithm"]]:
            point[option] = ""
    return point


def points_of(axes: Axes) -> List[Point]:
    """The points of the grid, each once. An option that an algorithm does not take is empty in its points."""
    points: Dict[Tuple[Tuple[str, str], ...], Point] = {}
    for values in itertools.product(*axes.values()):
        point = with_options_taken(dict(zip(axes, values)))
        points[tuple(point.items())] = point
        if len(points) > MOST_POINTS:
            raise command.Fault(f"more than {MOST_POINTS} points: divide the grid into several sweeps")
    return list(points.values())


def with_defaults(axes: Axes) -> Axes:
    """The axes, and an axis of one value for each parameter that is not given, so that the table shows it."""
    taken = dict(axes)
    options = {option for name in axes.get("algorithm", ()) for option in OPTIONS[name]}
    for name in MADE_BY[3:]:
        if name not in axes and name.replace("-", "_") in options:
            taken[name] = [TAKEN[name]]
    for name in PARAMETERS:
        if name not in axes and "machine" not in axes:
            taken[name] = [TAKEN[name]]
    return taken


def note_on_defaults(axes: Axes, taken: Axes) -> None:
    """Prints the parameters that were not given, with their defaults."""
    texts = []
    for name in taken:
        if name not in axes:
            unit = {"S": " bytes", "root": "", "segments": "", "node": ""}.get(name, f" {UNITS.get(name, '')}")
            more = {"G": f" ({8 / float(TAKEN['G']):.1f} Gbit/s)", "sum-ps": " (sums cost no time)"}.get(name, "")
            texts.append(f"{name}={TAKEN[name]}{unit}{more}")
    if texts:
        print(f"sweep: not given: {', '.join(texts)}", file=sys.stderr)


def scale_of(axes: Axes) -> int:
    """The factor for all times that makes each rate a whole number of picoseconds. Prints a note if it is not 1."""
    machines = axes.get("machine", ())
    scales = [scale_of_text(text) for text in map(text_of, machines) if is_description(text)]
    scale = max([scale_for(value for name in RATES for value in axes.get(name, ())), *scales])
    for machine in machines:
        read_cluster(machine, scale)
    for name in PARAMETERS if "machine" not in axes else ():
        for value in axes[name]:
            try:
                scaled_options(name, value, scale)
            except ValueError as why:
                raise command.Fault(str(why)) from None
    if scale > 1:
        reason = f"for rates finer than a picosecond per byte: bytes cost whole 1/{scale} ns"
        print(f"sweep: times are taken {scale} times, {reason}", file=sys.stderr)
    return scale
