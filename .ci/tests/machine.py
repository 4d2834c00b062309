#!/usr/bin/env python3
"""Tests of tools/machine: the program accepts its output, each message has the class that the description gives, and
faults of a description are reported."""
from __future__ import annotations

import os
import subprocess
import sys
import tempfile
import unittest

TOP = os.path.dirname(os.path.dirname(os.path.dirname(os.path.abspath(__file__))))
sys.path[:0] = [os.path.join(TOP, "tools"), os.path.join(TOP, ".ci")]
import tool_calls
from common import program

GOAL = program.chosen()
CLASSES = "class a L=100 o=0 g=0 G=0\nclass b L=1000 o=0 g=0 G=0\nclass c L=10000 o=0 g=0 G=0\n"
BOUNDS = "inside a\nbetween b\n"


def written(description: str) -> subprocess.CompletedProcess[str]:
    return tool_calls.called("machine", "-", given=description)


def latencies(machine: str, ranks: int, pairs: list[tuple[int, int]]) -> list[int]:
    """The travel time of an empty message between the ranks of each pair."""
    found = []
    for source, target in pairs:
        text = f"num_ranks {ranks} rank {source} {{ send 0b to {target} }} rank {target} {{ recv 0b from {source} }}"
        with tempfile.NamedTemporaryFile("w") as file:
            file.write(machine)
            file.flush()
            answer = program.expect(program.call(GOAL, ["nodes", "/dev/stdin", file.name], text), program.DONE)
        found.append(int(answer.out.splitlines()[0].split()[-1]))
    return found


class Machines(unittest.TestCase):
    def machine(self, description: str) -> str:
        ended = written(description)
        self.assertEqual((ended.returncode, ended.stderr), (0, ""))
        return ended.stdout

    def test_the_example_of_the_documents(self) -> None:
        with open(os.path.join(TOP, "examples", "two_nodes"), encoding="utf-8") as file:
            wanted = file.read()
        said = self.machine("class net L=1500 o=400 g=300 G=0.080\nclass memory L=300 o=200 g=100 G=0.1 O=0.1 # shared\n"
                            "nodes 2 of 8\ninside memory\nbetween net\n")
        self.assertEqual(said, wanted)

    def test_classes_depend_on_distance(self) -> None:
        said = self.machine(CLASSES + BOUNDS + "across c\nnodes 4 of 2\ngroups 2 of 2\n")
        self.assertEqual(latencies(said, 8, [(0, 1), (0, 2), (3, 0), (0, 4), (7, 1), (4, 6)]), [100, 1000, 1000, 10000, 10000, 1000])

    def test_classes_when_more_pairs_are_near_than_far(self) -> None:
        said = self.machine(CLASSES + BOUNDS + "across c\nnodes 5 of 1\ngroup 0-1 3-4\ngroup 2\n")
        self.assertIn("default 1\n", said)
        self.assertEqual(latencies(said, 5, [(0, 1), (0, 2), (2, 0), (0, 4), (2, 3)]), [1000, 10000, 10000, 1000, 10000])

    def test_nodes_by_their_ranks(self) -> None:
        said = self.machine(CLASSES + BOUNDS + "node 0 2 4\nnode 1 3 5\n")
        self.assertIn("ranks 6\n0 1 0\n1 0 1\n", said)
        self.assertEqual(latencies(said, 6, [(0, 2), (0, 1), (5, 1)]), [100, 1000, 100])

    def test_pairs_have_their_own_classes(self) -> None:
        said = self.machine(CLASSES + BOUNDS + "nodes 4 of 1\npair 0 1 c\noneway 2 3 a\n")
        self.assertEqual(latencies(said, 4, [(0, 1), (1, 0), (2, 3), (3, 2)]), [10000, 10000, 100, 1000])

    def test_ranks_are_placed_in_turn(self) -> None:
        said = self.machine(CLASSES + BOUNDS + "nodes 2 of 3 cyclic\nnodes 2 of 1 cyclic\n")
        self.assertIn("ranks 8\n0 1 0\n1 0 1\n2 3\n", said)

    def test_a_machine_has_no_cards(self) -> None:
        whole = self.machine(CLASSES + BOUNDS + "nodes 2 of 3\ncards own\n")
        for cards in ("1", "2 in turn"):
            ended = written(CLASSES + BOUNDS + f"nodes 2 of 3\ncards {cards}\n")
            self.assertEqual((ended.returncode, ended.stdout), (0, whole))
            self.assertEqual(ended.stderr, f"machine: MACHINE has a card for each rank: for `cards {cards}` take tools/fold\n")

    def test_default_values_are_those_of_sim(self) -> None:
        said = self.machine("class a\nnodes 1 of 1\ninside a\nbetween a\n")
        self.assertIn("class 2500 1500 1000 6 0 0 0 65535\n", said)

    def test_a_rate_finer_than_a_picosecond_scales_all_times(self) -> None:
        ended = written("class a L=300 o=200 g=100 G=0.0025\nclass b S=7\nnodes 2 of 1\ninside a\nbetween b\n")
        self.assertIn("class 3000 2000 1000 0 25 0 0 65535\nclass 25000 15000 10000 60 0 0 0 7\n", ended.stdout)
        self.assertEqual((ended.returncode, ended.stderr.startswith("machine: all times are 10 times as long")), (0, True))

    def test_the_largest_machine(self) -> None:
        said = self.machine(CLASSES + BOUNDS + "nodes 65536 of 1\n")
        one_calc = "num_ranks 65536 rank 65535 { calc 7 }"
        with tempfile.NamedTemporaryFile("w") as file:
            file.write(said)
            file.flush()
            self.assertEqual(program.call(GOAL, ["nodes", "/dev/stdin", file.name], one_calc).status, program.DONE)

    def test_faults_are_one_line(self) -> None:
        for description, why in (
                ("nods 2 of 2", "-:1: 'nods' does not begin a line"), (CLASSES + "nodes 2 by 2", "-:4: write `nodes COUNT of SIZE`"),
                ("nodes 2 of 2 round", "-:1: write `nodes COUNT of SIZE`"), ("groups 2 of 2 cyclic", "-:1: write `groups COUNT of SIZE`"),
                ("cards", "-:1: write `cards own`"), ("cards 0", "-:1: `cards 0`: a node has at least one card"), ("cards 257", "-:1: '257' is not a number of cards from 0 to 256"),
                ("cards 1\ncards 1", "-:2: `cards` is given twice"), ("cards own in turn", "-:1: 'own' is not a number of cards from 0 to 256"),
                ("nodes 0 of 2", "-:1: write `nodes COUNT of SIZE`, both above 0"), ("nodes 300 of 300", "-:1: more than 65536 ranks"),
                ("class a L=3 L=4", "-:1: L is given twice"), ("class a G=0.0000801", "-:1: G is 0.0000801"), ("class a L=1099511627775 G=0.0801", "-:1: L is 1099511627775: for a rate"),
                ("class a G=0.0025 Op=5", "-:1: Op cannot be given beside"), ("class a S=16X", "-:1: S is 16X, not a number of bytes, as"), ("class a X=1", "-:1: 'X=1' is not a parameter"),
                ("class a Gp=1000", "-:1: Gp is 1000, and at most 999"), ("class a G=0.1 Gp=3", "-:1: Gp is given twice"),
                ("class L=3", "-:1: write `class NAME"), ("class a\nclass a", "-:2: the class a is given twice"),
                ("inside a\ninside b", "-:2: `inside` is given twice"), ("node 0\nnode 1 0", "-:2: rank 0 is in two nodes"),
                ("node 3-1", "-:1: '3-1' is not a range"), ("node", "-:1: `node` is empty"), ("pair 0 1", "-:1: write `pair A B NAME`"),
                ("oneway 0 1 a\npair 1 0 a", "-:2: the pair 0 1 is given twice"),
                ("", "-: the line `inside NAME` is missing"), (BOUNDS, "-: 0 classes"), (CLASSES + BOUNDS, "-: there are no nodes"),
                (CLASSES + BOUNDS + "across c\nnodes 1 of 1", "-: `across` is the class between groups"),
                (CLASSES + BOUNDS + "nodes 2 of 1\ngroups 1 of 2", "-: the line `across NAME` is missing"),
                (CLASSES + BOUNDS + "across c\nnodes 3 of 1\ngroups 1 of 2", "-: node 2 is in no group"),
                (CLASSES + BOUNDS + "across c\nnodes 3 of 1\ngroups 2 of 2", "-: node 3 is in a group, and there are 3 nodes"),
                (CLASSES + BOUNDS + "node 0 2", "-: rank 1 is in no node"), (CLASSES + "inside a\nbetween d\nnodes 1 of 1", "-: there is no class d"),
                (CLASSES + BOUNDS + "nodes 2 of 1\npair 0 2 c", "-: the pair 0 2 does not name two of 2 nodes"),
                (CLASSES + BOUNDS + "across c\nnodes 1024 of 1\ngroups 2 of 512", "523264 pairs of nodes")):
            ended = written(description)
            self.assertEqual((ended.returncode, ended.stdout, ended.stderr.count("\n")), (2, "", 1), description)
            self.assertTrue(ended.stderr.startswith(f"machine: {why}"), (description, ended.stderr))


if __name__ == "__main__":
    unittest.main(verbosity=0)
