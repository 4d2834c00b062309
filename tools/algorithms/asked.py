"""The plan that command-line arguments ask for: an algorithm, ranks, bytes and options. Nothing of it is proved."""
import argparse
from typing import Callable, Tuple

from algorithms import own
from algorithms.collectives import Wish
from algorithms.plan import Plan
from algorithms.table import ALGORITHMS, printed
from common import command
from common.limits import MOST_BYTES, MOST_RANKS

OPTIONS = {"root": "--root", "segments": "--segments", "node": "--node", "sum_ps": "--sum-ps"}


def algorithm_of(word: str) -> Tuple[str, Callable[[Wish], Plan], Tuple[str, ...]]:
    """The algorithm of this name: the name, the function that makes its plan, and the options that it takes."""
    if own.is_own(word):
        return (word, *own.own_algorithm(word))
    for algorithm in ALGORITHMS:
        if algorithm.name == word:
            return word, algorithm.make, algorithm.options
    names = ", ".join(repr(algorithm.name) for algorithm in ALGORITHMS)
    raise argparse.ArgumentTypeError(f"invalid choice: {word!r} (choose from {names}, or FILE.py:NAME)")


def add_words(parser: argparse.ArgumentParser) -> None:
    """Adds the arguments that ask for a plan."""
    parser.add_argument("--list", action="version", version=printed(),
                        help="print a table of the algorithms, with their options and sources, and exit")
    parser.add_argument("algorithm", metavar="ALGORITHM", type=algorithm_of, help="one of the algorithms below")
    parser.add_argument("ranks", metavar="RANKS", type=command.number(1, MOST_RANKS, "ranks"),
                        help="the number of ranks, 1 to 65536")
    size = command.size(0, MOST_BYTES)
    parser.add_argument("size", metavar="BYTES", type=size,
                        help="a size, see below: 0 to 2^40-1, written as 4096, 4K or 16M")
    parser.add_argument("--root", metavar="Z", type=command.number(0, MOST_RANKS - 1, "a rank"),
                        help="the rank of the root (0)")
    parser.add_argument("--segments", type=command.number(1, MOST_RANKS, "segments"), metavar="K",
                        help="cut the vector, or each block of the ring, into K segments (1)")
    node = command.number(1, MOST_RANKS, "ranks")
    parser.add_argument("--node", type=node, metavar="N", help="ranks per node (1)")
    parser.add_argument("--sum-ps", type=command.number(0, 10**9, "ps per byte"), metavar="PS",
                        help="the cost of a sum in ps per byte, rounded up to whole ns for each sum (0)")


def plan_of(given: argparse.Namespace) -> Plan:
    """The plan that the arguments ask for."""
    algorithm, make, taken = given.algorithm
    options = {name: getattr(given, name) for name in OPTIONS if getattr(given, name) is not None}
    for name in options:
        if name not in taken:
            raise command.Fault(f"{algorithm} takes no {OPTIONS[name]}: leave it out (--list has the options of each)")
    if options.get("root", 0) >= given.ranks:
        raise command.Fault(f"--root {given.root} is not one of {given.ranks} ranks, from 0")
    return make(Wish(given.ranks, given.size, **options))  # type: ignore[no-any-return]
