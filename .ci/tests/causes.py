#!/usr/bin/env python3
"""Tests of the causes of a run, which several tools use: on random schedules, each derived time is the printed one."""
import os
import random
import sys
import unittest
from typing import Dict, List, Optional, Tuple

TOP = os.path.dirname(os.path.dirname(os.path.dirname(os.path.abspath(__file__))))
sys.path.insert(0, os.path.join(TOP, "tools"))
from common import program
from common.canonical import Schedule, read_canonical
from common.causes import END, Causes
from common.parameters import Alike, Costs, machine_of, parameters_of, words_of
from common.phases import Misfit, Window, stories_of
from common.printed_run import Run, read_run

GOAL = program.chosen()
SEED, ROUNDS = 20261201, int(os.environ.get("CAUSES_ROUNDS", "150"))
SIZES = (0, 1, 2, 8, 9, 1000)


def drawn_schedule(draw: random.Random) -> str:
    """A random schedule with few ranks, cpus and NICs, so that much waits. Some receives take from any rank or with any
    tag."""
    ranks = draw.randrange(1, 5)
    cpus, nics, calm = draw.choice((1, 1, 2, 3)), draw.choice((1, 1, 2)), draw.random()
    blocks: List[List[str]] = [[] for _ in range(ranks)]
    counts = [0] * ranks

    def add(rank: int, action: str) -> None:
        here = counts[rank]
        counts[rank] += 1
        nic = "" if "calc" in action else f" nic {draw.randrange(nics)}"
        blocks[rank].append(f"o{here}: {action} cpu {draw.randrange(cpus)}{nic}")
        for _ in range(draw.choice((0, 1, 1, 2))):
            if here and draw.random() < calm:
                blocks[rank].append(f"o{here} {draw.choice(('requires', 'irequires'))} o{draw.randrange(here)}")

    for _ in range(draw.randrange(1, 4 * ranks + 2)):
        source, target, size, tag = draw.randrange(ranks), draw.randrange(ranks), draw.choice(SIZES), draw.randrange(2)
        add(source, f"send {size}b to {target} tag {tag}")
        if draw.random() < 0.95:
            add(target, f"recv {draw.choice(SIZES)}b from {draw.choice((source, source, 'any'))} tag {draw.choice((tag, tag, 'any'))}")
        if draw.random() < 0.5:
            add(draw.randrange(ranks), f"calc {draw.choice((0, 1, 10, 300))}")
    return f"num_ranks {ranks}\n" + "\n".join(f"rank {rank} {{ {' '.join(block)} }}" for rank, block in enumerate(blocks))


def drawn_parameters(draw: random.Random) -> Dict[str, int]:
    """Random parameters: small numbers and zeros, so that many times are equal."""
    values = {name: draw.choice((0, 0, 1, 2, 5, 10, 100)) for name in ("L", "o", "g")}
    values.update({name: draw.choice((0, 0, 1, 2)) for name in ("G", "O")})
    values.update({name: draw.choice((0, 0, 80, 500)) for name in ("Gp", "Op")})
    return {**values, "S": draw.choice((0, 1, 8, 2000))}


def drawn_machine(draw: random.Random, ranks: int) -> str:
    """A machine with three classes and random nodes."""
    classes = [" ".join(map(str, ["class", *(drawn_parameters(draw)[name] for name in ("L", "o", "g", "G", "Gp", "O", "Op", "S"))])) for _ in range(3)]
    nodes = [draw.randrange(3) for _ in range(ranks)]
    return f"classes 3 {' '.join(classes)} inside 0 default 1 ranks {ranks} {' '.join(map(str, nodes))} pairs 1 0 1 2"


def loaded(text: str, options: Optional[Dict[str, int]], machine: str = "") -> Tuple[Schedule, Run, Costs]:
    """A schedule with its run: with these parameters, or on a machine."""
    schedule = read_canonical(program.call(GOAL, ["show", "/dev/stdin"], text).out.splitlines())
    if options is None:
        name = "/tmp/causes.machine.%d" % os.getpid()
        with open(name, "w", encoding="utf-8") as file:
            file.write(machine)
        answer = program.call(GOAL, ["nodes", "/dev/stdin", name], text)
        os.remove(name)
        return schedule, read_run(program.expect(answer, program.DONE, program.STUCK).out.splitlines()), machine_of(machine)
    answer = program.call(GOAL, ["sim", "/dev/stdin", *words_of(options)], text)
    return schedule, read_run(program.expect(answer, program.DONE, program.STUCK).out.splitlines()), Alike(parameters_of(options))


def causes_of(schedule: Schedule, run: Run, costs: Costs) -> Causes:
    return Causes(schedule, stories_of(schedule, run, costs, Window(range(run.ranks))), costs)


class Drawn(unittest.TestCase):
    def check(self, causes: Causes, run: Run, what: str) -> None:
        """Checks that each start and end is the greatest time of its causes."""
        for key, timed in run.timed.items():
            first = causes.first(key)
            for action, moment in ((first, timed.start), ((END, key), timed.end)):
                if moment is not None:
                    self.assertEqual(max((cause.time for cause in causes.of(action)), default=0), moment, what)

    def test_times_with_parameters(self) -> None:
        draw = random.Random(SEED)
        for number in range(ROUNDS):
            text, options = drawn_schedule(draw), drawn_parameters(draw)
            schedule, run, costs = loaded(text, options)
            self.check(causes_of(schedule, run, costs), run, f"{number}: {options}\n{text}")

    def test_times_on_machines(self) -> None:
        draw = random.Random(SEED + 1)
        for number in range(ROUNDS // 3):
            text = drawn_schedule(draw)
            machine = drawn_machine(draw, int(text.split()[1]))
            schedule, run, costs = loaded(text, None, machine)
            self.check(causes_of(schedule, run, costs), run, f"{number}: {machine}\n{text}")

    def test_a_run_of_other_parameters_is_refused(self) -> None:
        """Each run is refused with other parameters, if these give another run."""
        draw, differ = random.Random(SEED + 2), 0
        for _ in range(ROUNDS // 3):
            text, options = drawn_schedule(draw), drawn_parameters(draw)
            schedule, run, _ = loaded(text, options)
            other = {**options, draw.choice(("L", "o", "g", "G")): 7}
            if loaded(text, other)[1] != run:
                differ += 1
                with self.assertRaises(Misfit, msg=f"{options} {other}\n{text}"):
                    causes_of(schedule, run, Alike(parameters_of(other)))
        self.assertGreater(differ, ROUNDS // 10)


if __name__ == "__main__":
    unittest.main(verbosity=0)
