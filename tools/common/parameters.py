"""The parameters of a run, as the options of goal, and what a message costs with them. Nothing of it is proved.

A rate, G or O, is one number of ns per byte with up to three decimals: 0.080 is 80 ps. goal itself takes a rate as two
options: G in whole ns and Gp in ps, or O and Op.
"""
import argparse
import re
from dataclasses import dataclass
from decimal import Decimal
from typing import Dict, Iterable, List, Protocol, Tuple

from common.command import FACTORS
from common.limits import MOST_PARAMETER

DEFAULTS = {"L": 2500, "o": 1500, "g": 1000, "G": 6, "Gp": 0, "O": 0, "Op": 0, "S": 65535}
MEANINGS = {
    "L": "latency, ns",
    "o": "overhead per message, ns",
    "g": "gap per message, ns",
    "G": "gap per byte, ns, as 6 or 0.080",
    "Gp": "gap per byte, ps, added to a whole number for G",
    "O": "overhead per byte, ns, as 0 or 0.100",
    "Op": "overhead per byte, ps, added to a whole number for O",
    "S": "greatest eager size, bytes; a message over it waits for its receive",
}
UNITS = {"L": "ns", "o": "ns", "g": "ns", "G": "ns per byte", "Gp": "ps per byte", "O": "ns per byte", "Op": "ps per byte", "S": "bytes"}
# The rates, which goal takes in nanoseconds and picoseconds, each with the name of its option in picoseconds.
RATES = {"G": "Gp", "O": "Op"}
# The most decimals of a rate in ns per byte: with the times of goal, and with scaled times.
DECIMALS, MOST_DECIMALS = 3, 6


def scale_for(rates: Iterable[str]) -> int:
    """The least power of ten that makes all these rates whole numbers of ps, if all times are multiplied by it."""
    decimals = [len(rate.partition(".")[2].rstrip("0")) for rate in rates]
    scale: int = 10 ** max(0, max(decimals, default=0) - DECIMALS)
    return scale


def scaled_options(name: str, text: str, scale: int) -> Dict[str, int]:
    """The options of goal that give a parameter this value, if all times are `scale` times as long. With a scale above
    1, a rate may have more decimals."""
    if scale == 1 or name == "S":
        return options_of(name, text)
    if name in RATES.values():
        raise ValueError(f"{name} cannot be given beside a rate finer than a picosecond per byte: give {name[0]} as one number, as 0.0025")
    if name in RATES and re.fullmatch(rf"\d{{1,20}}\.\d{{1,{MOST_DECIMALS}}}", text):
        picos = int(Decimal(text) * 1000 * scale)
        options = {name: picos // 1000, RATES[name]: picos % 1000}
    else:
        options = {option: value * scale for option, value in options_of(name, text).items()}
    if options[name] > MOST_PARAMETER[name]:
        raise ValueError(f"{name} is {text}: for a rate finer than a picosecond per byte all times are taken {scale} times, and `goal` takes "
                         f"at most {MOST_PARAMETER[name]} {UNITS[name]}")
    return options


def scaled_defaults(scale: int) -> Dict[str, int]:
    """The default parameters of goal, with all times multiplied by `scale`."""
    return {name: value * (scale if name != "S" else 1) for name, value in DEFAULTS.items()}


def options_of(name: str, text: str) -> Dict[str, int]:
    """The options of goal, by name, that give a parameter this value."""
    if name in RATES and re.fullmatch(r"\d+\.\d{1,3}", text):
        whole, part = text.split(".")
        if int(whole) > MOST_PARAMETER[name]:
            raise ValueError(f"{name} is {text}, and at most {MOST_PARAMETER[name]} {UNITS[name]}")
        return {name: int(whole), RATES[name]: int(part.ljust(3, "0"))}
    found = re.fullmatch(r"(\d{1,20})([KM]?)", text)
    if found and (name == "S" or not found[2]):
        number = int(found[1]) * FACTORS[found[2]]
        if number > MOST_PARAMETER[name]:
            raise ValueError(f"{name} is {number}, and at most {MOST_PARAMETER[name]} {UNITS[name]}")
        return {name: number}
    if name in RATES and re.fullmatch(rf"\d{{1,20}}\.\d{{1,{MOST_DECIMALS}}}", text):
        raise ValueError(f"{name} is {text}: a rate finer than a picosecond per byte is for tools/sweep and tools/machine, which scale all times")
    wanted = ", with up to three decimals" if name in RATES else ", as 65535, 64K or 1M" if name == "S" else ""
    raise ValueError(f"{name} is {text}, not a number of {UNITS[name]}{wanted}")


def words_of(options: Dict[str, int]) -> List[str]:
    """The words of a command line for these options."""
    return [word for name, value in options.items() for word in (f"--{name}", str(value))]


def add_options(parser: argparse.ArgumentParser) -> None:
    """Adds the eight options that goal has for a run."""
    group = parser.add_argument_group("parameters, as those of `goal sim`")
    for name, meaning in MEANINGS.items():
        group.add_argument(f"--{name}", metavar="N", dest=f"parameter_{name}", help=f"{meaning} ({DEFAULTS[name]})")


def given_options(arguments: argparse.Namespace) -> Dict[str, int]:
    """The options that the arguments give, by name."""
    options: Dict[str, int] = {}
    for name in DEFAULTS:
        text = getattr(arguments, f"parameter_{name}")
        if text is not None:
            values = options_of(name, text)
            if options.keys() & values.keys():
                raise ValueError(f"{name} is given twice: --{name} and the decimals of its nanoseconds")
            options.update(values)
    return options


def up(nanos: int, picos: int, size: int) -> int:
    """The cost in ns of the bytes of a message: the rate for each byte but the first, and the sum rounded up."""
    rest = max(size - 1, 0)
    return nanos * rest + -(-picos * rest // 1000)


@dataclass(frozen=True)
class Parameters:
    """The parameters of a class of messages."""

    L: int
    o: int
    g: int
    G: int
    Gp: int
    O: int
    Op: int
    S: int

    def over(self, size: int) -> int:
        """How long a cpu is busy with a message."""
        return self.o + up(self.O, self.Op, size)

    def gap(self, size: int) -> int:
        """How long a side of a NIC is busy with a message."""
        return self.g + up(self.G, self.Gp, size)

    def flight(self, size: int) -> int:
        """How long a message travels, from the start of the send to the arrival."""
        return self.o + max(up(self.O, self.Op, size), up(self.G, self.Gp, size)) + self.L

    def is_eager(self, size: int) -> bool:
        return size <= self.S


def parameters_of(options: Dict[str, int]) -> Parameters:
    return Parameters(**{**DEFAULTS, **options})


class Costs(Protocol):
    """Something that gives the parameters of a message from its source and target."""

    def between(self, source: int, target: int) -> Parameters:
        """The parameters of a message from the rank `source` to the rank `target`."""


@dataclass
class Machine:
    """A machine, as `goal nodes` reads it from MACHINE: the nodes of two ranks decide the parameters of their
    messages."""

    classes: List[Parameters]
    inside: int
    default: int
    nodes: List[int]
    pairs: Dict[Tuple[int, int], int]

    def between(self, source: int, target: int) -> Parameters:
        one, other = self.nodes[source], self.nodes[target]
        return self.classes[self.inside if one == other else self.pairs.get((one, other), self.default)]


def machine_of(text: str) -> Machine:
    """The machine of a text that `goal nodes` has accepted."""
    words = iter(text.split())

    def after(name: str) -> int:
        if next(words, "") != name:
            raise ValueError(f"no machine: no `{name}` where it must stand")
        return int(next(words, ""))

    classes = []
    for _ in range(after("classes")):
        classes.append(Parameters(after("class"), *(int(next(words)) for _ in range(7))))
    inside, default = after("inside"), after("default")
    nodes = [int(next(words)) for _ in range(after("ranks"))]
    pairs = {}
    for _ in range(after("pairs")):
        one, other = int(next(words)), int(next(words))
        pairs[one, other] = int(next(words))
    if not all(0 <= number < len(classes) for number in (inside, default, *pairs.values())):
        raise ValueError("no machine: there is no class of such a number")
    return Machine(classes, inside, default, nodes, pairs)


@dataclass
class Alike:
    """The same parameters for all messages."""

    parameters: Parameters

    def between(self, source: int, target: int) -> Parameters:
        return self.parameters
