"""Curves from the rows of tables: one column over another, a curve for each combination of other columns. Nothing of
it is proved."""
from __future__ import annotations

import math
import os
from dataclasses import dataclass, field
from typing import Dict, List, Optional, Sequence

from common.chart import MOST_CURVES, Axis, Curve, chart
from common.command import Fault
from common.grid import NAMES, UNITS
from common.runs import SHARES
from common.table import Row

TIMES = ("finish", "wait", *SHARES)
# A scale of sizes is geometric if its ends have at least this ratio.
WIDE_RATIO = 64


@dataclass
class Wanted:
    """What a picture shows: the column `y` over the column `x`, with a curve for each combination of the columns `by`.

    `labels` has the names of the curves, if they are given. If `ratio` names a curve, all curves are divided by it."""

    x: str
    y: str
    by: List[str]
    title: str
    labels: List[str] = field(default_factory=list)
    ratio: Optional[str] = None


def label_of(axis: str, value: str) -> str:
    return os.path.basename(value) if axis in NAMES else f"{axis} {value}"


def name_of(row: Row, wanted: Wanted) -> str:
    """The name of the curve that a row belongs to."""
    return ", ".join(label_of(axis, row[axis]) for axis in wanted.by if row.get(axis)) or wanted.y


def check_count(rows: Sequence[Row], wanted: Wanted) -> None:
    """Refuses rows with more curves than a picture may have."""
    count = len({name_of(row, wanted) for row in rows})
    if count > MOST_CURVES:
        raise Fault(f"{count} curves: a picture has at most {MOST_CURVES}, so give fewer values or another --x")


def number_of(row: Row, column: str) -> float:
    try:
        return float(row[column])
    except ValueError:
        raise Fault(f"{column}: {row[column] or 'an empty field'} is not a number") from None


def curves_of(rows: Sequence[Row], wanted: Wanted) -> List[Curve]:
    """The curves of the rows, the points of each in the order of x."""
    curves: Dict[str, Curve] = {}
    for row in rows:
        curve = curves.setdefault(name_of(row, wanted), Curve(name_of(row, wanted)))
        x = number_of(row, wanted.x)
        if x in curve.refused or any(x == other for other, _ in curve.points):
            why = f"two rows of the curve {curve.name} have {wanted.x} {row[wanted.x]}"
            raise Fault(f"{why}: name in --by the columns in which they differ")
        if row[wanted.y] == "":
            curve.refused.add(x)
            continue
        curve.points.append((x, None if row.get("stuck", "0") != "0" else number_of(row, wanted.y)))
        if row.get("protocol") in ("rendezvous", "both"):
            curve.large.add(x)
    for curve in curves.values():
        curve.points.sort(key=lambda point: point[0])
    return list(curves.values())


def named(curves: List[Curve], labels: List[str]) -> None:
    """Renames the curves, in their order, if labels are given."""
    if labels and len(labels) != len(curves):
        names = "; ".join(curve.name for curve in curves)
        raise Fault(f"{len(labels)} labels for {len(curves)} curves: give one for each of {names}")
    for curve, label in zip(curves, labels):
        curve.name = label


def divide(curves: List[Curve], name: str) -> None:
    """Divides all curves by the one with this name. Points at which that curve has no value are dropped."""
    found = [curve for curve in curves if curve.name == name]
    if not found:
        raise Fault(f"--ratio {name} is not the name of a curve: they are {'; '.join(curve.name for curve in curves)}")
    base = {x: y for x, y in found[0].points if y}
    for curve in curves:
        curve.points = [(x, None if y is None else y / base[x]) for x, y in curve.points if x in base]


def is_geometric(values: Sequence[float]) -> bool:
    """Whether rising numbers have a constant ratio."""
    if len(values) < 3 or values[0] <= 0:
        return False
    factors = [high / low for low, high in zip(values, values[1:])]
    return max(factors) - min(factors) < 1e-6 and factors[0] > 1


def picture(rows: Sequence[Row], wanted: Wanted) -> str:
    """The picture of the rows."""
    check_count(rows, wanted)
    curves = curves_of(rows, wanted)
    named(curves, wanted.labels)
    if wanted.ratio is not None:
        divide(curves, wanted.ratio)
    xs = sorted({x for curve in curves for x in [*curve.refused, *(x for x, _ in curve.points)]})
    ys = [y for curve in curves for _, y in curve.points if y is not None]
    if not ys:
        raise Fault(f"no row has a number in the column {wanted.y}, so there is nothing to draw")
    unit = UNITS.get(wanted.x, "")
    is_log = is_geometric(xs) or (unit == "size" and xs[0] > 0 and xs[-1] >= WIDE_RATIO * xs[0])
    is_given = is_geometric(xs) and (unit != "size" or all(math.log2(x).is_integer() for x in xs))
    x_axis = Axis(wanted.x, is_log, unit, xs if is_given else [])
    is_high = min(ys) > 0 and max(ys) >= 10 * min(ys)
    if wanted.ratio is not None:
        y_axis = Axis(f"{wanted.y}, that of {wanted.ratio} is 1", is_log and is_high)
    else:
        y_axis = Axis(wanted.y, is_log and is_high, "time" if wanted.y in TIMES else UNITS.get(wanted.y, ""))
    return chart(wanted.title, curves, x_axis, y_axis)
