"""The runs of a sweep: makes each schedule once, runs all points, and collects the results. Nothing of it is proved."""
from __future__ import annotations

import contextlib
import fcntl
import os
import re
from collections import Counter
from dataclasses import dataclass, field
from decimal import Decimal
from typing import Dict, Iterable, Iterator, List, Optional, Sequence, Set, Tuple, Union

from algorithms import asked
from common import command, folding, program
from common.chain import NAMES
from common.description import Cards, cards_of, cluster_of, is_description
from common.grid import MADE_BY, PARAMETERS, Point
from common.limits import KINDS, MOST_NANOSECONDS
from common.loading import schedule_of, text_of, write_out
from common.parameters import Alike, Machine, parameters_of, scaled_options, words_of
from common.pool import Pool
from common.printed_run import first_line
from common.whole import Whole, shares_by_name, whole_of

SEND = re.compile(r": send (\d+)b")
RANK_OR_SEND = re.compile(r"^rank (\d+)|: send (\d+)b to (\d+)", re.MULTILINE)
CALC = re.compile(r"(?<=: calc )\d+")
LOST = "its process was killed: is there too little memory?"
# The columns with the shares of the finish, in ns.
SHARES = tuple(f"share_{name}" for name in NAMES)
Time = Union[int, Decimal, str]
Key = Tuple[str, ...]


@dataclass(frozen=True)
class Result:
    """The results of a run, or the reason (`fault`) why there are none."""

    finish: Time = ""
    stuck: Union[int, str] = ""
    wait: Time = ""
    protocol: str = ""
    fault: str = ""
    shares: Dict[str, Time] = field(default_factory=dict)

    def columns(self) -> Dict[str, str]:
        """The values for the columns of a table."""
        found = {"finish": self.finish, "stuck": self.stuck, "wait": self.wait, **self.shares, "protocol": self.protocol}
        return {name: str(value) for name, value in found.items()}


@dataclass
class Asked:
    """What all runs of a sweep have in common.

    `scale` is the factor for all times. `wait` and `shares` say whether the greatest wait and the shares are wanted.
    `folder` is the folder for files. `texts` has the schedules that come from standard input."""

    goal: str
    scale: int
    wait: bool
    shares: bool
    folder: str
    texts: Dict[str, str] = field(default_factory=dict)

    def take_standard_input(self, points: Iterable[Point]) -> None:
        """Reads standard input, if a point needs it, before the processes start: they have another standard input."""
        for name in {point.get("schedule", "") for point in points}:
            if command.source(name) == command.STANDARD_INPUT:
                self.texts[name] = schedule_of(name, self.goal)[1] or ""
        for name in {point.get("machine", "") for point in points}:
            if command.source(name) == command.STANDARD_INPUT:
                text_of(name)


def key_of(point: Point) -> Key:
    """The key that identifies the schedule of a point."""
    return (point["schedule"],) if "schedule" in point else tuple(point.get(axis, "") for axis in MADE_BY)


class Runs:
    """Runs points in parallel. The file of a schedule is removed after its last run."""

    def __init__(self, asked_for: Asked, jobs: int) -> None:
        self.asked = asked_for
        self.numbers: Dict[Key, int] = {}
        self.pool: Pool[Tuple[str, Point], Result] = Pool(self._result, Result(fault=LOST), jobs, asked_for.folder)

    def _result(self, task: Tuple[str, Point]) -> Result:
        return result_of(self.asked, *task)

    def of(self, points: Sequence[Point]) -> Iterator[Result]:
        """The results of the points, in their order, each as soon as it and all earlier ones exist."""
        left = Counter(map(key_of, points))
        tasks = ((self._path(key_of(point)), point) for point in points)
        for point, result in zip(points, self.pool.map(tasks)):
            left[key_of(point)] -= 1
            if not left[key_of(point)]:
                remove_schedule(self._path(key_of(point)))
            yield result

    def _path(self, key: Key) -> str:
        return os.path.join(self.asked.folder, f"schedule{self.numbers.setdefault(key, len(self.numbers))}")

    def end(self) -> None:
        self.pool.end()


@contextlib.contextmanager
def running(asked_for: Asked, jobs: int) -> Iterator[Runs]:
    """Runs whose processes end with the `with` block, also after an exception."""
    runs = Runs(asked_for, jobs)
    try:
        yield runs
    finally:
        runs.end()


def remove_schedule(path: str) -> None:
    for name in (path, path + ".sizes", path + ".fault", path + ".lock"):
        with contextlib.suppress(FileNotFoundError):
            os.remove(name)


def result_of(asked_for: Asked, path: str, point: Point) -> Result:
    """Runs a point. The file of its schedule has this path."""
    try:
        make_once(asked_for, path, point)
        if "machine" in point:
            return run_on_machine(asked_for, path, point)
        return run_with_parameters(asked_for, path, point)
    except (command.Fault, ValueError) as why:
        return Result(fault=str(why))
    except OSError as why:
        return Result(fault=f"{why.filename or asked_for.folder}: {why.strerror}")
    except MemoryError:
        return Result(fault="out of memory")


def make_once(asked_for: Asked, path: str, point: Point) -> None:
    """Makes the file of a schedule unless it exists. Other processes that need it wait. If making it fails, it fails
    for all of them."""
    if os.path.exists(path):
        return
    with open(path + ".lock", "w", encoding="utf-8") as lock:
        fcntl.flock(lock, fcntl.LOCK_EX)
        if os.path.exists(path + ".fault"):
            raise command.Fault(text_of(path + ".fault"))
        if not os.path.exists(path):
            try:
                make(asked_for, path, point)
            except command.Fault as why:
                write_out(str(why), path + ".fault")
                raise


def make(asked_for: Asked, path: str, point: Point) -> None:
    """Makes a schedule. Writes its compiled file, and a file with the sizes of its messages."""
    made = schedule_text(asked_for, point)
    write_out("".join(f"{line}\n" for line in sizes_of(made, "machine" in point)), path + ".sizes")
    write_out(scaled(made, asked_for.scale), path + ".text")
    program.expect(program.call(asked_for.goal, ["compile", path + ".text", path + ".part"]), program.DONE)
    os.remove(path + ".text")
    os.rename(path + ".part", path)


def schedule_text(asked_for: Asked, point: Point) -> str:
    """The canonical text of the schedule of a point."""
    if "schedule" in point:
        name = point["schedule"]
        shown = program.call(asked_for.goal, ["show", command.source(name)], asked_for.texts.get(name))
        return program.expect(shown, program.DONE).out
    words = [point["algorithm"], point["ranks"], point["size"]]
    words += [word for axis in MADE_BY[3:] if point.get(axis) for word in (f"--{axis}", point[axis])]
    if point["algorithm"] in KINDS:
        return program.expect(program.call(asked_for.goal, ["gen", *words]), program.DONE).out
    parser = command.parser(None)
    asked.add_words(parser)
    try:
        return "".join(asked.plan_of(parser.parse_args(words)).text())
    except command.Fault as why:
        raise command.Fault(f"schedule: {why}") from None


def sizes_of(text: str, by_pair: bool) -> List[str]:
    """The least and the greatest size of the messages in a text as a line, or with `by_pair` as a line for each pair of
    ranks."""
    if not by_pair:
        sizes = [int(size) for size in SEND.findall(text)]
        return [f"0 0 {min(sizes)} {max(sizes)}"] if sizes else []
    pairs: Dict[Tuple[int, int], Tuple[int, int]] = {}
    source = 0
    for rank, bytes_sent, target in RANK_OR_SEND.findall(text):
        if rank:
            source = int(rank)
            continue
        pair, size = (source, int(target)), int(bytes_sent)
        least, greatest = pairs.get(pair, (size, size))
        pairs[pair] = min(least, size), max(greatest, size)
    return [" ".join(map(str, (*pair, *ends))) for pair, ends in pairs.items()]


def scaled(text: str, scale: int) -> str:
    """The text of a schedule with its calcs `scale` times as long."""
    if scale == 1:
        return text
    if any(int(nanos) * scale > MOST_NANOSECONDS for nanos in CALC.findall(text)):
        raise command.Fault(f"a calc times {scale} is over {MOST_NANOSECONDS} ns: give rates of whole picoseconds, or shorter calcs")
    return CALC.sub(lambda nanos: str(int(nanos[0]) * scale), text)


def protocol_of(path: str, most_eager: int, machine: Optional[Machine] = None) -> str:
    """How the messages of a schedule are sent: `eager`, `rendezvous` or `both`. Messages are eager up to `most_eager`
    bytes or, on a machine, up to S of their class."""
    found: Set[bool] = set()
    with open(path + ".sizes", encoding="utf-8") as file:
        for line in file:
            source, target, *ends = map(int, line.split())
            most = machine.between(source, target).S if machine else most_eager
            found |= {size <= most for size in ends}
    return "both" if len(found) > 1 else "eager" if True in found else "rendezvous" if found else ""


def unscaled(time: int, scale: int) -> Time:
    """The time in ns of a time that is `scale` times as long."""
    exact = Decimal(time) / scale
    return int(exact) if exact == int(exact) else exact.normalize()


def output_of(goal: str, *words: str) -> List[str]:
    return program.expect(program.call(goal, words), program.DONE, program.STUCK).out.splitlines()


def run_with_parameters(asked_for: Asked, path: str, point: Point) -> Result:
    goal, scale = asked_for.goal, asked_for.scale
    options: Dict[str, int] = {}
    for name in PARAMETERS:
        options.update(scaled_options(name, point[name], scale))
    words = words_of(options)
    lines = output_of(goal, "sim" if asked_for.shares else "knots", path, *words)
    run = first_line(lines[0])
    wait: Time = ""
    if asked_for.wait:
        waits = output_of(goal, "waits", path, *words)
        wait = unscaled(next((int(line.split()[3]) for line in waits if line.startswith("wait ")), 0), scale)
    shares: Dict[str, Time] = {}
    if asked_for.shares:
        shares = shares_in(whole_of(goal, path, None, options, lines, Alike(parameters_of(options)), Cards()), scale)
    return Result(unscaled(run.finish, scale), run.stuck, wait, protocol_of(path, options["S"]), shares=shares)


def shares_in(whole: Whole, scale: int) -> Dict[str, Time]:
    """The values for the columns with the shares of the finish of a run."""
    return {f"share_{name}": unscaled(nanos, scale) for name, nanos in shares_by_name(whole).items()}


def run_on_machine(asked_for: Asked, path: str, point: Point) -> Result:
    name = point["machine"]
    text = text_of(name)
    cards = cards_of(point["cards"]) if "cards" in point else None
    scale = asked_for.scale
    cluster = cluster_of(name, text, scale)
    is_described = is_description(text) or "placement" in point or bool(cards and cards.count) or scale > 1
    if "placement" in point:
        cluster = cluster.placed(point["placement"])
    is_whole = asked_for.wait or asked_for.shares
    if is_described:
        lines = (folding.run_lines(asked_for.goal, path, None, cluster, cards) if is_whole
                 else folding.first_lines(asked_for.goal, path, cluster, cards))
    else:
        answer = program.call(asked_for.goal, ["nodes", path, command.STANDARD_INPUT], text)
        lines = program.expect(answer, program.DONE, program.STUCK).out.splitlines()
    run = first_line(lines[0])
    wait: Time = ""
    shares: Dict[str, Time] = {}
    if is_whole:
        shared = (cards or cluster.cards or Cards()) if is_described else Cards()
        whole = whole_of(asked_for.goal, path, None, {}, lines, cluster.machine, shared)
        # (`goal waits` takes no machine)
        wait = unscaled(max((story.wait for story in whole.stories.values()), default=0), scale) if asked_for.wait else ""
        shares = shares_in(whole, scale) if asked_for.shares else {}
    return Result(unscaled(run.finish, scale), run.stuck, wait, protocol_of(path, 0, cluster.machine), shares=shares)
