"""Loads a run of a schedule with the stories of its operations, for `timeline` and `trace`. Nothing of it is proved."""
import argparse
import errno
import os
import re
import sys
import tempfile
from dataclasses import dataclass
from typing import Dict, List, Optional, Set, Tuple

from common import command, folding, program
from common.canonical import Key, operation_counts, rank_count, read_canonical
from common.command import Fault
from common.description import cluster_of, is_description
from common.limits import MOST_TIME
from common.parameters import Alike, Costs, Machine, add_options, given_options, parameters_of, words_of
from common.phases import Story, Window, stories_of
from common.places import COMPILED, decoded, operations
from common.printed_run import Run, read_run


@dataclass
class Loaded:
    """The run to draw, the stories of its operations by key, and the window that they are in."""

    name: str
    run: Run
    stories: Dict[Key, Story]
    window: Window

    def by_rank(self) -> Dict[int, List[Story]]:
        """The stories of each rank of the window."""
        ranks: Dict[int, List[Story]] = {rank: [] for rank in self.window.ranks}
        for story in self.stories.values():
            ranks[story.key[0]].append(story)
        return ranks

    def messages(self) -> List[Tuple[Story, Story]]:
        """The pairs of a send and its receive of which both are loaded."""
        sends = (story for story in self.stories.values() if story.op.kind == "send" and story.stuck_from is None)
        pairs = ((story, self.stories.get(story.timed.partner) if story.timed.partner else None) for story in sends)
        return [(story, taken) for story, taken in pairs if taken and taken.busy]

    def is_stuck(self) -> bool:
        """Whether an operation is stuck."""
        return any(story.never or story.stuck_from is not None for story in self.stories.values())

    def last_moment(self) -> int:
        """The last end. If operations are stuck, a time after the last action, so that they are visible."""
        if not self.is_stuck():
            return self.run.finish
        return max((span[1] for it in self.stories.values() for span in it.busy), default=0) * 5 // 4


def add_run_words(parser: argparse.ArgumentParser, limit: int) -> None:
    """Adds the arguments that choose a run and a part of it. `limit` is the default of --limit."""
    time = command.number(0, MOST_TIME, "ns")
    parser.add_argument("name", metavar="NAME",
                        help="the schedule: a text or a compiled file (- is standard input, also for --run and "
                             "--machine)")
    parser.add_argument("--run", metavar="FILE", help="use this printed run of the schedule instead of running it")
    parser.add_argument("--machine", metavar="MACHINE",
                        help="run it on this machine: a MACHINE of `goal nodes`, or a description (tools/machine, "
                             "tools/fold)")
    parser.add_argument("-o", "--out", metavar="FILE", help="write to FILE instead of standard output")
    window = parser.add_argument_group("a part of the run")
    window.add_argument("--ranks", metavar="A-B", help="only these ranks, as 0-7 or 0,4-5,9")
    window.add_argument("--from", metavar="T", dest="since", type=time, default=0, help="only from this time on, in ns")
    window.add_argument("--to", metavar="T", dest="until", type=time, help="only up to this time, in ns")
    count = command.number(0, MOST_TIME, "operations")
    window.add_argument("--limit", metavar="N", type=count, default=limit,
                        help="refuse a part of the run with more than N operations; without a time, all of the ranks "
                             "count (%(default)s)")
    add_options(parser)
    program.add_option(parser)


def ranks_of(text: Optional[str], count: int) -> Dict[int, None]:
    """The ranks that a list such as 0-7 or 0,4-5,9 names, in order, as the keys of a dictionary. Without a list, all
    ranks."""
    if text is None:
        return dict.fromkeys(range(count))
    ranks: Set[int] = set()
    for part in text.split(","):
        found = re.fullmatch(r"(\d+)(?:-(\d+))?", part)
        if not found:
            raise Fault(f"--ranks {text}: give a list such as 0-7 or 0,4-5,9")
        first, last = int(found[1]), int(found[2] or found[1])
        if not first <= last < count:
            raise Fault(f"--ranks {part}: the schedule has the ranks 0 to {count - 1}")
        ranks.update(range(first, last + 1))
    return dict.fromkeys(sorted(ranks))


def load(arguments: argparse.Namespace) -> Loaded:
    """The run that the arguments ask for."""
    try:
        options = given_options(arguments)
        check_words(arguments, options)
        costs = costs_of(arguments, options)
        name, text = schedule_of(arguments.name, program.chosen(arguments.goal))
        shown = canonical_of(arguments, text, name)
        check_machine(costs, rank_count(shown))
        window = Window(ranks_of(arguments.ranks, rank_count(shown)), arguments.since, arguments.until)
        if is_whole(arguments):
            counts = operation_counts(shown)
            check_limit(arguments, sum(counts.get(rank, 0) for rank in window.ranks))
        run = read_run(run_lines(arguments, options, name, text), window.ranks)
        # (operations that end in the window count, so most runs over the limit are refused before stories are made)
        check_limit(arguments, sum(it.end is not None and window.meets(it.end, it.end) for it in run.timed.values()), " or more")
        stories = stories_of(read_canonical(shown.splitlines(), window.ranks, with_notes=False), run, costs, window)
    except ValueError as why:
        raise Fault(str(why)) from None
    check_limit(arguments, sum(window.sees(story) for story in stories.values()))
    return Loaded(arguments.name, run, stories, window)


def check_words(arguments: argparse.Namespace, options: Dict[str, int]) -> None:
    """Refuses wrong arguments before any file is read."""
    if arguments.until is not None and arguments.until <= arguments.since:
        raise Fault(f"--to {arguments.until} is not after --from {arguments.since}")
    check_sources(arguments, options)


def check_sources(arguments: argparse.Namespace, options: Dict[str, int]) -> None:
    """Refuses --machine with parameters, and more than one file that is standard input."""
    if arguments.machine is not None and options:
        raise Fault("--machine has its own parameters: leave out --L, --o, --g, --G, --Gp, --O, --Op and --S")
    files = [name for name in (arguments.name, arguments.run, arguments.machine) if name is not None]
    if sum(command.source(name) == command.STANDARD_INPUT for name in files) > 1:
        raise Fault("only one of the schedule, its run and the machine can be standard input: give the others by name")


def is_whole(arguments: argparse.Namespace) -> bool:
    """Whether the whole time of the run is chosen."""
    return arguments.since == 0 and arguments.until is None


def check_limit(arguments: argparse.Namespace, seen: int, more: str = "") -> None:
    """Refuses a part of the run whose number of operations, `seen`, is over the limit. The message has `more` after
    this number."""
    if seen > arguments.limit:
        raise Fault(f"{seen} operations{more}, and the limit is {arguments.limit}: choose some by --ranks, --from and --to, or raise --limit")


def check_machine(costs: Costs, ranks: int) -> None:
    """Refuses a machine whose number of ranks is not that of the schedule."""
    if isinstance(costs, Machine) and len(costs.nodes) != ranks:
        raise Fault(f"the machine has {len(costs.nodes)} ranks, and the schedule has {ranks}")


def labels_of(name: str) -> Dict[Key, str]:
    """The labels in the text of a schedule, except those that `goal show` would give. A compiled file has none."""
    text = command.read_file(name)
    if text.startswith(COMPILED):
        return {}
    labelled = ((item, decoded(item.words[0])) for item in operations(text) if item.words[1:2] == [b":"])
    return {(item.rank, item.number): label for item, label in labelled if label != f"l{item.number + 1}"}


def schedule_of(name: str, goal: str) -> Tuple[str, Optional[str]]:
    """The name of a schedule for the program, and the text for its standard input, if any."""
    if command.source(name) != command.STANDARD_INPUT:
        return name, None
    text = command.read_file(name)
    if not text.startswith(COMPILED):
        return command.STANDARD_INPUT, text.decode("utf-8", "replace")
    with tempfile.NamedTemporaryFile() as file:
        file.write(text)
        file.flush()
        return command.STANDARD_INPUT, program.expect(program.call(goal, ["show", file.name]), program.DONE).out


def text_of(name: str) -> str:
    return command.read_file(name).decode("utf-8", "replace")


def output_of(arguments: argparse.Namespace, text: Optional[str], *words: str) -> List[str]:
    """The lines that the program prints."""
    answer = program.call(program.chosen(arguments.goal), words, text)
    return program.expect(answer, program.DONE, program.STUCK).out.splitlines()


def canonical_of(arguments: argparse.Namespace, text: Optional[str], name: str) -> str:
    """The canonical text of the schedule."""
    return program.expect(program.call(program.chosen(arguments.goal), ["show", name], text), program.DONE).out


def run_lines(arguments: argparse.Namespace, options: Dict[str, int], name: str, text: Optional[str]) -> List[str]:
    """The lines of the printed run: of the given one, or of a new one."""
    if arguments.run is not None:
        return text_of(arguments.run).splitlines()
    if arguments.machine is not None:
        return machine_lines(arguments, name, text)
    return output_of(arguments, text, "sim", name, *words_of(options))


def machine_lines(arguments: argparse.Namespace, name: str, text: Optional[str]) -> List[str]:
    """The lines of the printed run on a machine. If the machine is a description, its ranks may share cards."""
    machine = text_of(arguments.machine)
    if is_description(machine):
        return folding.run_lines(program.chosen(arguments.goal), name, text, cluster_of(arguments.machine, machine))
    if command.source(arguments.machine) == command.STANDARD_INPUT:
        return output_of(arguments, machine, "nodes", name, command.STANDARD_INPUT)
    return output_of(arguments, text, "nodes", name, arguments.machine)


def costs_of(arguments: argparse.Namespace, options: Dict[str, int]) -> Costs:
    """The costs of messages in the run."""
    if arguments.machine is None:
        return Alike(parameters_of(options))
    return cluster_of(arguments.machine, text_of(arguments.machine)).machine


def check_out(path: Optional[str]) -> None:
    """Refuses an output file that cannot be written, before any work. It creates no file."""
    if path is not None:
        folder = os.path.dirname(path) or "."
        if os.path.isdir(path):
            raise Fault(f"{path}: {os.strerror(errno.EISDIR)}")
        if not os.path.isdir(folder):
            raise Fault(f"{path}: {os.strerror(errno.ENOENT)}")


def write_out(text: str, path: Optional[str]) -> None:
    """Writes the output of a tool to a file, or to standard output."""
    if path is None:
        sys.stdout.write(text)
        return
    try:
        with open(path, "w", encoding="utf-8") as file:
            file.write(text)
    except OSError as why:
        raise Fault(f"{path}: {why.strerror}") from None
