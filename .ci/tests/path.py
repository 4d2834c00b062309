#!/usr/bin/env python3
"""Tests of tools/path: the chain of causes and its shares add up, and the predicted effects of parameters agree with
runs."""
import os
import random
import subprocess
import sys
import tempfile
import unittest
from typing import List

TOP = os.path.dirname(os.path.dirname(os.path.dirname(os.path.abspath(__file__))))
sys.path[:0] = [os.path.join(TOP, "tools"), os.path.join(TOP, ".ci", "tests"), os.path.join(TOP, ".ci")]
import tool_calls
from causes import causes_of, drawn_machine, drawn_parameters, drawn_schedule, loaded
from common import program
from common.chain import chain_to, end_of, shares_of
from common.printed_run import first_line

EXAMPLES = os.path.join(TOP, "examples")
GOAL = program.chosen()
SEED, ROUNDS = 20261202, 100
CARDS = "class memory L=300 o=200 g=100 G=0.100\nclass cable L=1500 o=400 g=300 G=0.080\nnodes 2 of 4\ninside memory\nbetween cable\ncards 1\n"


def path(*words: str, text: str = "") -> "subprocess.CompletedProcess[str]":
    return tool_calls.called("path", *words, given=text)


def shares_shown(lines: List[str]) -> int:
    """The sum of the printed shares."""
    start = next(at for at, line in enumerate(lines) if line.startswith("of "))
    rows = [line.split("%")[0].split() for line in lines[start + 1:] if line.startswith("  ") and "%" in line]
    return sum(int(row[-2]) for row in rows)


class Chains(unittest.TestCase):
    def test_every_end_adds_up(self) -> None:
        """For each operation of random schedules, the chain and the shares add up to its end."""
        draw = random.Random(SEED)
        for number in range(ROUNDS):
            text = drawn_schedule(draw)
            on_machine = number % 4 == 0
            machine = drawn_machine(draw, int(text.split()[1])) if on_machine else ""
            schedule, run, costs = loaded(text, None if on_machine else drawn_parameters(draw), machine)
            causes = causes_of(schedule, run, costs)
            for key, timed in run.timed.items():
                if timed.end is not None:
                    steps = chain_to(causes, end_of(key))
                    self.assertEqual((steps[-1].time, sum(share.nanos for share in shares_of(steps))), (timed.end, timed.end), text)
                    self.assertEqual(steps[0].time, 0)

    def test_the_exchange(self) -> None:
        done = path(os.path.join(EXAMPLES, "exchange"))
        lines = done.stdout.splitlines()
        self.assertEqual((done.returncode, done.stderr), (0, ""))
        self.assertEqual(lines[4].split(None, 6)[:6], ["4154", "4054", "4154", "1", "0", "3:10"])
        self.assertIn("takes its message after the way from 0 1 (o 1500 + G 54 + L 2500)", lines[4])
        self.assertEqual(shares_shown(lines), 11408)

    def test_a_schedule_from_a_pipe_has_its_lines(self) -> None:
        with open(os.path.join(EXAMPLES, "exchange"), encoding="utf-8") as file:
            self.assertEqual(path("-", text=file.read()).stdout, path(os.path.join(EXAMPLES, "exchange")).stdout)

    def test_a_collective_with_ranks_that_share_a_card(self) -> None:
        with tempfile.TemporaryDirectory() as folder:
            schedule, machine = os.path.join(folder, "schedule"), os.path.join(folder, "machine")
            with open(schedule, "w", encoding="utf-8") as file:
                file.write(program.call(GOAL, ["gen", "alltoall", "8", "1000"]).out)
            with open(machine, "w", encoding="utf-8") as file:
                file.write(CARDS)
            done = path(schedule, "--machine", machine)
            lines = done.stdout.splitlines()
            self.assertEqual((done.returncode, shares_shown(lines)), (0, first_line(lines[0]).finish), done.stderr)
            self.assertIn(" of class 1 ", done.stdout)
            other = path(schedule, "--machine", machine, "--to", "5", "3")
            self.assertIn(" 5 3 ", other.stdout.split("\nof ")[0].splitlines()[-1])

    def test_a_chain_that_repeats_is_folded(self) -> None:
        text = program.call(os.path.join(TOP, "tools", "schedule"), ["bcast-chain", "40", "8"]).out
        lines = path("-", text=text).stdout.splitlines()
        self.assertTrue(any("these 2 steps" in line and "times more" in line for line in lines), lines)
        whole = path("-", "--all", text=text).stdout.splitlines()
        self.assertGreater(len(whole), 70)
        self.assertEqual(shares_shown(lines), shares_shown(whole))

    def test_what_is_stuck(self) -> None:
        done = path(os.path.join(EXAMPLES, "both_send_first"), "--to", "0", "1")
        self.assertEqual(done.returncode, program.STUCK)
        lines = done.stdout.splitlines()
        self.assertIn("0 1 at 3:32 is r: recv 100000b from 1: needs 0 0", lines[1])
        self.assertIn("the cycle begins again at 0 1", done.stdout)
        self.assertEqual(path(os.path.join(EXAMPLES, "both_send_first")).returncode, program.STUCK)

    def test_faults_are_one_line(self) -> None:
        name = os.path.join(EXAMPLES, "exchange")
        for words in ([name, "--to", "0", "9"], [name, "--machine", name, "--L", "1"], [name, "--run", os.path.join(EXAMPLES, "large")]):
            done = path(*words)
            self.assertEqual((done.returncode, done.stdout, done.stderr.count("\n")), (2, "", 1), words)

    def test_a_run_of_other_parameters_is_refused(self) -> None:
        name = os.path.join(EXAMPLES, "exchange")
        other = program.call(GOAL, ["sim", name, "--L", "7"]).out
        done = path(name, "--run", "-", text=other)
        self.assertEqual((done.returncode, done.stdout), (2, ""))
        self.assertIn("the run is not of this schedule with these parameters", done.stderr)
        self.assertEqual(path(name, "--run", "-", "--L", "7", text=other).returncode, 0)


class Reruns(unittest.TestCase):
    def test_more_latency_may_end_earlier(self) -> None:
        """An alltoall with round parameters is an example. The curve shows it."""
        text = program.call(GOAL, ["gen", "alltoall", "32", "1"]).out
        done = path("-", "--what-if", "--L", "2000", "--o", "400", "--g", "300", text=text)
        lines = done.stdout.splitlines()
        at = 1 + next(number for number, line in enumerate(lines) if line.startswith("what if"))
        finish = dict(zip(lines[at].split()[1:], lines[at + 1].split()[1:]))
        self.assertEqual((finish["2000"], finish["2001"]), ("26800", "26001"))
        self.assertIn("not monotone here", lines[at + 2])

    def test_the_reached_value_is_the_last_one(self) -> None:
        """The value gives at most the wanted finish, and the next value does not."""
        name = os.path.join(EXAMPLES, "exchange")
        for wanted in (10000, 11408, 20000):
            found = {line.split()[0]: line.split() for line in path(name, "--reach", str(wanted)).stdout.splitlines() if ": it is" in line}
            self.assertIn("L", found)
            for parameter, words in found.items():
                value = words[1].rstrip(":")
                if "." not in value and "any" not in words:
                    finishes = [self.finish(name, parameter, int(value) + more) for more in (0, 1)]
                    self.assertTrue(finishes[0] <= wanted < finishes[1], words)
                    self.assertEqual((words[4].rstrip(","), words[-1]), tuple(map(str, finishes)))

    def finish(self, name: str, parameter: str, value: int) -> int:
        return first_line(program.call(GOAL, ["knots", name, f"--{parameter}", str(value)]).out.split("\n")[0]).finish


if __name__ == "__main__":
    unittest.main(verbosity=0)
