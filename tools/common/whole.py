"""Loads a whole run of a schedule with the causes of its times, for tools such as `path`. Nothing of it is proved."""
from __future__ import annotations

import argparse
from dataclasses import dataclass
from functools import cached_property
from typing import Dict, List, Optional, Tuple

from common import folding, program
from common.canonical import Key, Schedule, operation_counts, rank_count, read_canonical
from common.causes import Causes
from common.chain import NAMES, chain_to, end_of, last_end, shares_of
from common.command import STANDARD_INPUT, Fault
from common.description import Cards, cluster_of
from common.loading import canonical_of, check_machine, check_sources, costs_of, run_lines, schedule_of, text_of
from common.parameters import Costs, Machine, add_options, given_options
from common.phases import Misfit, Story, Window, stories_of
from common.printed_run import Run, Timed, read_run


def add_whole_words(parser: argparse.ArgumentParser) -> None:
    """Adds the arguments that choose a run, for tools that read the whole run."""
    parser.add_argument("name", metavar="NAME",
                        help="the schedule: a text or a compiled file (- is standard input, also for --run and "
                             "--machine)")
    parser.add_argument("--run", metavar="FILE", help="use this printed run of the schedule instead of running it")
    parser.add_argument("--machine", metavar="MACHINE",
                        help="run it on this machine: a MACHINE of `goal nodes`, or a description (tools/machine, "
                             "tools/fold)")
    add_options(parser)
    program.add_option(parser)


@dataclass
class Whole:
    """A run of a schedule. If the ranks of a node share cards, it is a run of the folded schedule (tools/fold), and
    `names` has the rank and number of each operation in the original schedule.

    The program reads the file `source`, and `text`, if there is one, as its standard input. `shown` is the canonical
    text of the original schedule."""

    goal: str
    source: str
    text: Optional[str]
    options: Dict[str, int]
    schedule: Schedule
    run: Run
    costs: Costs
    stories: Dict[Key, Story]
    names: Dict[Key, Key]
    shown: List[str]

    @cached_property
    def causes(self) -> Causes:
        try:
            return Causes(self.schedule, self.stories, self.costs)
        except Misfit as why:
            raise Fault(str(why)) from None

    @property
    def ranks(self) -> int:
        """The number of ranks of the original schedule."""
        return rank_count(self.shown[0])

    def named(self, key: Key) -> Key:
        """The rank and the number of an operation in the original schedule."""
        return self.names.get(key, key)

    def key_of(self, name: Key) -> Key:
        """The operation that has this rank and number in the original schedule."""
        return {old: new for new, old in self.names.items()}.get(name, name)


def load_whole(arguments: argparse.Namespace, wanted: Optional[Key] = None) -> Whole:
    """The run that the arguments ask for. Wrong arguments, such as an operation `wanted` that does not exist, are
    refused before the run starts."""
    try:
        options = given_options(arguments)
        check_sources(arguments, options)
        costs, goal = costs_of(arguments, options), program.chosen(arguments.goal)
        source, text = schedule_of(arguments.name, goal)
        canonical = canonical_of(arguments, text, source)
        check_machine(costs, rank_count(canonical))
        if wanted is not None and wanted[1] >= operation_counts(canonical).get(wanted[0], 0):
            raise Fault(f"rank {wanted[0]} has no operation {wanted[1]}: it has {operation_counts(canonical).get(wanted[0], 0)}, from 0")
        lines, cards = run_lines(arguments, options, source, text), cards_of_machine(arguments.machine)
        return whole_of(goal, source, text, options, lines, costs, cards, canonical.splitlines())
    except ValueError as why:
        raise Fault(str(why)) from None


def whole_of(
    goal: str, source: str, text: Optional[str], options: Dict[str, int], lines: List[str], costs: Costs, cards: Cards,
    shown: Optional[List[str]] = None
) -> Whole:
    """The `Whole` of a printed run. On a machine, the ranks share these cards. `shown` is the canonical text, if it is
    known."""
    run, shown = read_run(lines), shown or shown_by(goal, source, text)
    if not cards.count or not isinstance(costs, Machine):
        return Whole(goal, source, text, options, *with_stories(read_canonical(shown, with_notes=False), run, costs), {}, shown)
    folded = folding.Fold(read_canonical(shown, with_notes=False), costs, cards)
    text = "".join(folded.text())
    schedule = read_canonical(shown_by(goal, STANDARD_INPUT, text))
    names = {new: old for old, new in folded.new_key.items()}
    run = rekeyed(run, folded.new_key)
    return Whole(goal, STANDARD_INPUT, text, options, *with_stories(schedule, run, folded.folded_machine()), names, shown)


def shown_by(goal: str, source: str, text: Optional[str]) -> List[str]:
    """The canonical text of a schedule."""
    return program.expect(program.call(goal, ["show", source], text), program.DONE).out.splitlines()


def cards_of_machine(name: Optional[str]) -> Cards:
    """The cards that the description of a machine gives to its nodes."""
    return (cluster_of(name, text_of(name)).cards if name is not None else None) or Cards()


def with_stories(schedule: Schedule, run: Run, costs: Costs) -> Tuple[Schedule, Run, Costs, Dict[Key, Story]]:
    """A schedule, its run and its costs, and the stories of all operations."""
    return schedule, run, costs, stories_of(schedule, run, costs, Window(range(run.ranks)))


def rekeyed(run: Run, new_key: Dict[Key, Key]) -> Run:
    """A run translated to the ranks and numbers of the folded schedule."""
    timed = {new_key[key]: Timed(it.start, it.end, it.partner and new_key[it.partner]) for key, it in run.timed.items()}
    reasons = {}
    for key, reason in run.reasons.items():
        words = reason.split()
        if words[0] == "for":
            words[2:] = map(str, new_key[int(words[2]), int(words[3])])
        reasons[new_key[key]] = " ".join(words)
    ranks = 1 + max((key[0] for key in timed), default=0)
    return Run(ranks, run.ops, run.stuck, run.unread, run.finish, timed, reasons)


def timed_chain(whole: Whole) -> List[Tuple[int, Key]]:
    """The actions on the chain of causes to the last end: for each its time, and its operation in the original
    schedule."""
    last = last_end(whole.causes)
    steps = chain_to(whole.causes, end_of(last)) if last else []
    return [(step.time, whole.named(step.action[1])) for step in steps]


def shares_by_name(whole: Whole) -> Dict[str, int]:
    """The share in ns of each parameter on the chain of causes to the last end. The shares add up to the finish."""
    found = dict.fromkeys(NAMES, 0)
    last = last_end(whole.causes)
    for share in shares_of(chain_to(whole.causes, end_of(last))) if last else []:
        found[share.name] += share.nanos
    if sum(found.values()) != whole.run.finish:
        raise Fault(f"the shares do not add up to {whole.run.finish}")
    return found
