#!/usr/bin/env python3
"""Tests of tools/waits: its lines are those of `goal waits` and `goal knots`, with parameters and on machines."""
import os
import random
import subprocess
import sys
import tempfile
import unittest
from typing import Dict

TOP = os.path.dirname(os.path.dirname(os.path.dirname(os.path.abspath(__file__))))
sys.path[:0] = [os.path.join(TOP, "tools"), os.path.join(TOP, ".ci", "tests"), os.path.join(TOP, ".ci")]
import tool_calls
from causes import drawn_parameters, drawn_schedule
from common import program
from common.parameters import DEFAULTS, words_of

EXAMPLES = os.path.join(TOP, "examples")
GOAL = program.chosen()
SEED, ROUNDS = 20261204, 12


def waits(*words: str, text: str = "") -> "subprocess.CompletedProcess[str]":
    return tool_calls.called("waits", *words, given=text)


def machine(options: Dict[str, int], ranks: int) -> str:
    """A machine with one class for all messages, and a node for each rank."""
    return f"classes 1 class {' '.join(str(options[name]) for name in DEFAULTS)} inside 0 default 0 ranks {ranks} {' '.join(map(str, range(ranks)))} pairs 0"


class Lines(unittest.TestCase):
    def same(self, name: str, options: Dict[str, int], *words: str, text: str = "") -> None:
        for command in ("waits", "knots"):
            wanted = program.call(GOAL, [command, name, *words_of(options)], text)
            done = waits(name, *words, *(["--knots"] if command == "knots" else []), text=text)
            self.assertEqual((done.stdout, done.returncode, done.stderr), (wanted.out, wanted.status, ""), (command, words, text))

    def test_examples(self) -> None:
        for name in ("exchange", "waits", "first_come", "both_send_first", "alltoall_send_first", "large", "busy_cpu"):
            self.same(os.path.join(EXAMPLES, name), {})

    def test_drawn(self) -> None:
        """With random parameters, and on a machine whose only class has them."""
        draw = random.Random(SEED)
        for number in range(ROUNDS):
            text, options = drawn_schedule(draw), drawn_parameters(draw)
            if number % 2:
                self.same("/dev/stdin", options, *words_of(options), text=text)
                continue
            with tempfile.NamedTemporaryFile("w") as file:
                file.write(machine(options, int(text.split()[1])))
                file.flush()
                self.same("/dev/stdin", options, "--machine", file.name, text=text)

    def test_ranks_that_share_a_card(self) -> None:
        """The report has a line for each rank of the schedule, though the run is one of nodes."""
        text = program.call(GOAL, ["gen", "alltoall", "8", "1000"]).out
        with tempfile.NamedTemporaryFile("w") as file:
            file.write("class a L=5\nnodes 2 of 4\ninside a\nbetween a\ncards 1\n")
            file.flush()
            done = waits("-", "--machine", file.name, text=text)
            knots = waits("-", "--machine", file.name, "--knots", text=text)
        self.assertEqual([line.split()[3] for line in done.stdout.splitlines() if line.startswith("rank ")], ["15"] * 8)
        self.assertTrue(knots.stdout.startswith("ranks 8 ops "), knots.stdout)


if __name__ == "__main__":
    unittest.main(verbosity=0)
