"""Scales of axes, with ticks at rounded values, and units for times and sizes. Nothing of it is proved."""
import math
from dataclasses import dataclass
from typing import List, Sequence, Tuple

Units = Sequence[Tuple[int, str]]

TIME_UNITS = ((1, "ns"), (1_000, "µs"), (1_000_000, "ms"), (1_000_000_000, "s"))
SIZE_UNITS = ((1, "B"), (1 << 10, "KiB"), (1 << 20, "MiB"), (1 << 30, "GiB"))


def plain(value: float) -> str:
    """A number without trailing zeros of decimals, with commas between thousands."""
    text = f"{value:,.6f}".rstrip("0").rstrip(".")
    return text or "0"


def unit_for(greatest: float, units: Units = TIME_UNITS) -> Tuple[int, str]:
    """The unit for numbers of which the greatest is given: a factor and a name."""
    fitting = [unit for unit in units if greatest >= 2 * unit[0]]
    return (fitting or [units[0]])[-1]


def in_unit(value: float, units: Units) -> str:
    """A number in the greatest unit that is not greater than it, as `16 KiB`."""
    factor, name = [unit for unit in units if value >= unit[0]][-1] if value >= 1 else units[0]
    return f"{plain(round(value / factor, 3))} {name}"


def rounded_step(span: float, count: int) -> float:
    """The least step of the form 1, 2 or 5 times a power of ten that divides a span into at most `count` parts."""
    least = span / count
    power: float = 10 ** math.floor(math.log10(least))
    return next(factor * power for factor in (1, 2, 5, 10) if factor * power >= least * (1 - 1e-9))


@dataclass
class Scale:
    """A mapping from values to pixels: `low` is at pixel `start`, `high` at pixel `end`."""

    low: float
    high: float
    start: float
    end: float
    is_log: bool = False

    def __call__(self, value: float) -> float:
        low, high, at = (map(math.log, (self.low, self.high, value)) if self.is_log else (self.low, self.high, value))
        share = (at - low) / (high - low) if high > low else 0.5
        return self.start + share * (self.end - self.start)

    def ticks(self, count: int) -> List[float]:
        """About `count` rounded values of the scale, or fewer."""
        if self.is_log:
            return log_ticks(self.low, self.high, count)
        if self.high <= self.low:
            return [self.low]
        step = rounded_step(self.high - self.low, count)
        whole = float(step).is_integer()
        ticks = [k * step for k in range(math.ceil(self.low / step - 1e-9), math.floor(self.high / step + 1e-9) + 1)]
        return [int(round(tick)) for tick in ticks] if whole else [round(tick, 9) for tick in ticks]

    def binary_ticks(self, count: int) -> List[float]:
        """About `count` powers of two, or fewer; on a linear scale, multiples of a power of two."""
        if self.is_log:
            powers = range(math.ceil(math.log2(self.low) - 1e-9), math.floor(math.log2(self.high) + 1e-9) + 1)
            every = max(1, math.ceil(len(powers) / count))
            return [2.0**power for power in powers if power % every == 0]
        if self.high <= self.low:
            return [self.low]
        step = 2.0 ** max(0, math.ceil(math.log2((self.high - self.low) / count)))
        return [k * step for k in range(math.ceil(self.low / step), math.floor(self.high / step) + 1)]


def log_ticks(low: float, high: float, count: int) -> List[float]:
    """Powers of ten from low to high, or every second, third .. of them. If there is room, also 2 and 5 times each."""
    first, last = math.ceil(math.log10(low) - 1e-9), math.floor(math.log10(high) + 1e-9)
    if 3 * (last - first + 1) <= count:
        between = [factor * 10.0**k for k in range(first - 1, last + 1) for factor in (1, 2, 5)]
        return [tick for tick in between if low * (1 - 1e-9) <= tick <= high * (1 + 1e-9)]
    every = max(1, math.ceil((last - first + 1) / count))
    return [10.0**k for k in range(first, last + 1, every)]


def log_ends(low: float, high: float) -> Tuple[float, float]:
    """The ends of a logarithmic scale that contains these values: powers of ten times 1, 2 or 5."""
    below, above = 10 ** math.floor(math.log10(low) + 1e-9), 10 ** math.floor(math.log10(high) + 1e-9)
    return (
        max(factor * below for factor in (1, 2, 5) if factor * below <= low * (1 + 1e-9)),
        min(factor * above for factor in (1, 2, 5, 10) if factor * above >= high * (1 - 1e-9)),
    )
