#!/usr/bin/env python3
"""Tests of tools/fold. With a card for each rank, it gives the run of `goal nodes`, operation by operation. With shared
cards, it gives small runs that were computed by hand. A schedule that cannot be folded is refused with the reason."""
import os
import random
import subprocess
import sys
import tempfile
import unittest
from typing import List, Optional

TOP = os.path.dirname(os.path.dirname(os.path.dirname(os.path.abspath(__file__))))
sys.path[:0] = [os.path.join(TOP, "tools"), os.path.join(TOP, ".ci")]
import tool_calls
from algorithms.collectives import Wish
from algorithms.table import ALGORITHMS
from common import command, folding, program
from common.canonical import read_canonical
from common.description import Cards, Cluster, cards_of, read
from common.limits import KINDS

GOAL = program.chosen()
SEED = 20261201
CLASSES = "class memory L=10 o=5 g=1 G=0\nclass cable L=1000 o=100 g=50 G=1\ninside memory\nbetween cable\n"
OWN, ONE = Cards(), Cards(1)


def canonical(text: str) -> str:
    return program.expect(program.call(GOAL, ["show", "/dev/stdin"], text), program.DONE).out


def run_by(text: str, cluster: Cluster, cards: Cards) -> List[str]:
    """The run of the folded schedule, in the ranks of the original schedule."""
    return folding.run_folded(GOAL, folding.Fold(read_canonical(canonical(text).splitlines()), cluster.machine, cards))


def run_of_nodes(text: str, cluster: Cluster) -> List[str]:
    """The run that `goal nodes` prints."""
    return folding.run_lines(GOAL, "/dev/stdin", text, cluster, OWN)


def drawn_schedule(draw: random.Random, ranks: int, wild: bool) -> str:
    """A random schedule. With `wild`, some receives take from any rank or with any tag."""
    blocks: List[List[str]] = [[] for _ in range(ranks)]
    counts = [0] * ranks

    def add(rank: int, action: str) -> None:
        here = counts[rank]
        counts[rank] += 1
        blocks[rank].append(f"o{here}: {action} cpu {draw.randrange(2)}" + (f" nic {draw.randrange(3)}" if "calc" not in action else ""))
        if here and draw.random() < 0.6:
            blocks[rank].append(f"o{here} {draw.choice(('requires', 'irequires'))} o{draw.randrange(here)}")

    for _ in range(6 * ranks):
        source, target, size, tag = draw.randrange(ranks), draw.randrange(ranks), draw.choice((0, 8, 1000, 70000)), draw.randrange(2)
        add(source, f"send {size}b to {target} tag {tag}")
        if draw.random() < 0.95:
            any_source, any_tag = wild and target % 2 == 0, wild and target % 3 == 0
            add(target, f"recv {size}b from {'any' if any_source else source} tag {'any' if any_tag else tag}")
        add(draw.randrange(ranks), f"calc {draw.randrange(3000)}")
    return f"num_ranks {ranks}\n" + "\n".join(f"rank {rank} {{ {' '.join(block)} }}" for rank, block in enumerate(blocks))


def drawn_machine(draw: random.Random, ranks: int, in_order: bool) -> Cluster:
    """A machine with random nodes. With `in_order`, the ranks of a node are successive."""
    nodes = [draw.randrange(4) for _ in range(ranks)]
    nodes = sorted(nodes) if in_order else nodes
    names = sorted(set(nodes))
    lines = [f"node {' '.join(str(rank) for rank in range(ranks) if nodes[rank] == name)}" for name in names]
    if len(names) > 1:
        lines.append("class far L=4000 o=300 g=10 G=0.300 S=500\noneway 0 1 far")
    return read("drawn", CLASSES + "\n".join(lines))


class Own(unittest.TestCase):
    """Runs with a card for each rank."""

    def check(self, text: str, cluster: Cluster, what: str, whole: bool = True) -> None:
        folded, wanted = run_by(text, cluster, OWN), run_of_nodes(text, cluster)
        if not whole:
            folded, wanted = ([line for line in lines if not line.startswith("stuck")] for lines in (folded, wanted))
        self.assertEqual(folded, wanted, what)

    def test_generated_collectives(self) -> None:
        draw = random.Random(SEED)
        for kind in KINDS:
            for ranks in (1, 4, 8, 16):
                text = program.expect(program.call(GOAL, ["gen", kind, str(ranks), str(draw.choice((8, 5000, 80000)))]), program.DONE).out
                self.check(text, drawn_machine(draw, ranks, False), f"{kind} {ranks}")

    def test_further_algorithms(self) -> None:
        draw = random.Random(SEED)
        for algorithm in ALGORITHMS:
            for ranks in (8, 16):
                wish = Wish(ranks, draw.choice((8, 5000, 800000)), node=4 if "node" in algorithm.options else 1,
                            segments=3 if "segments" in algorithm.options else 1)
                self.check("".join(algorithm.make(wish).text()), drawn_machine(draw, ranks, False), f"{algorithm.name} {ranks}")

    def test_drawn_schedules(self) -> None:
        """With several cpus, NICs and tags, `irequires`, rendezvous messages, and many stuck operations."""
        for seed in range(40):
            draw = random.Random(seed)
            ranks = draw.randrange(1, 12)
            self.check(drawn_schedule(draw, ranks, False), drawn_machine(draw, ranks, False), f"seed {seed}", whole=False)

    def test_drawn_schedules_with_wildcards(self) -> None:
        kept = 0
        for seed in range(40):
            draw = random.Random(seed)
            ranks = draw.randrange(1, 12)
            try:
                self.check(drawn_schedule(draw, ranks, True), drawn_machine(draw, ranks, True), f"seed {seed}", whole=False)
                kept += 1
            except command.Fault as fault:
                self.assertIn("cannot be folded", str(fault))
        self.assertGreater(kept, 10)

    def test_reasons_name_the_ranks(self) -> None:
        text = "num_ranks 4 rank 1 { a: send 100000b to 3 b: recv 100000b from 3 b requires a } " \
               "rank 3 { a: send 100000b to 1 b: recv 100000b from 1 b requires a } rank 2 { recv 8b from 0 tag 9 }"
        cluster = read("", CLASSES + "nodes 2 of 2\n")
        self.check(text, cluster, text)
        self.assertIn("stuck 3 0 for partner 1 1", run_by(text, cluster, ONE))
        self.assertIn("stuck 2 0 alone", run_by(text, cluster, ONE))


class Shared(unittest.TestCase):
    """Two nodes of two ranks, computed by hand. A message of 1,000 bytes over the cable holds the card at each side for
    50 + 999 ns, and arrives 100 + 999 + 1000 ns after the send begins."""

    two_of_two = read("", CLASSES + "nodes 2 of 2\n")

    def check(self, text: str, cards: Cards, *wanted: str, cluster: Optional[Cluster] = None) -> None:
        lines = run_by(text, cluster or self.two_of_two, cards)
        for line in wanted:
            self.assertIn(line, lines)

    def test_the_second_message_waits_for_the_card(self) -> None:
        text = "num_ranks 4 rank 0 { send 1000b to 2 } rank 1 { send 1000b to 3 } rank 2 { recv 1000b from 0 } rank 3 { recv 1000b from 1 }"
        self.check(text, OWN, "op 1 0 send start 0 end 100 match 3 0", "op 3 0 recv start 0 end 2199 match 1 0")
        self.check(text, ONE, "op 0 0 send start 0 end 100 match 2 0", "op 1 0 send start 1049 end 1149 match 3 0",
                   "op 2 0 recv start 0 end 2199 match 0 0", "op 3 0 recv start 0 end 3248 match 1 0")
        self.check(text, Cards(2), "op 3 0 recv start 0 end 2199 match 1 0")

    def test_a_small_message_waits_for_the_receiving_card(self) -> None:
        # (the message of 100 bytes is sent at 1049 and arrives at 1049 + 100 + 99 + 1000 = 2248; the card takes it at
        # 3148, after the message of 1,000 bytes)
        text = "num_ranks 4 rank 0 { send 1000b to 2 } rank 1 { send 100b to 3 } rank 2 { recv 1000b from 0 } rank 3 { recv 100b from 1 }"
        self.check(text, ONE, "op 1 0 send start 1049 end 1149 match 3 0", "op 3 0 recv start 0 end 3248 match 1 0")

    def test_a_message_inside_takes_no_card(self) -> None:
        text = "num_ranks 4 rank 0 { send 1000b to 2 recv 1000b from 1 cpu 1 } rank 1 { send 1000b to 0 } rank 2 { recv 1000b from 0 }"
        self.check(text, ONE, "op 1 0 send start 0 end 5 match 0 1", "op 0 1 recv start 0 end 20 match 1 0")

    def test_a_path_inside_a_node_and_a_card_are_separate(self) -> None:
        text = "num_ranks 4 rank 0 { send 1000b to 1 send 1000b to 2 cpu 1 } rank 1 { recv 1000b from 0 } rank 2 { recv 1000b from 0 }"
        self.check(text, OWN, "op 0 1 send start 1 end 101 match 2 0")
        self.check(text, ONE, "op 0 1 send start 0 end 100 match 2 0")

    def test_blocks_and_turns(self) -> None:
        text = "num_ranks 8 " + " ".join(f"rank {rank} {{ send 1000b to {rank + 4} }} rank {rank + 4} {{ recv 1000b from {rank} }}" for rank in range(4))
        cluster = read("", CLASSES + "nodes 2 of 4\n")
        begins = {cards: [line.split()[5] for line in run_by(text, cluster, cards_of(cards)) if " send " in line]
                  for cards in ("1", "2", "2 in turn", "3", "4", "8", "own")}
        self.assertEqual(begins, {"1": ["0", "1049", "2098", "3147"], "2": ["0", "1049", "0", "1049"],
                                  "2 in turn": ["0", "0", "1049", "1049"], "3": ["0", "1049", "0", "0"],
                                  "4": ["0"] * 4, "8": ["0"] * 4, "own": ["0"] * 4})

    def test_nics_of_a_rank_are_successive_cards(self) -> None:
        text = "num_ranks 2 rank 0 { send 1000b to 1 send 1000b to 1 cpu 1 nic 1 } rank 1 { recv 1000b from 0 recv 1000b from 0 cpu 1 nic 1 }"
        cluster = read("", CLASSES + "nodes 2 of 1\n")
        self.check(text, Cards(2), "op 1 1 recv start 0 end 2199 match 0 1", cluster=cluster)
        with self.assertRaisesRegex(command.Fault, "^operation 1 of rank 0 is on nic 1, and a node has 1 cards, from 0$"):
            run_by(text, cluster, ONE)

    def test_the_same_tag_of_two_ranks_of_a_node(self) -> None:
        text = "num_ranks 4 rank 0 { send 1b to 2 tag 7 send 2b to 3 tag 7 } rank 1 { send 3b to 2 tag 7 send 4b to 3 tag 7 } " \
               "rank 2 { recv 1b from 1 tag 7 recv 1b from 0 tag 7 } rank 3 { recv 1b from 1 tag 7 recv 1b from 0 tag 7 }"
        for cards in (OWN, ONE):
            matches = [line.split("match ")[1] for line in run_by(text, self.two_of_two, cards) if " send " in line]
            self.assertEqual(matches, ["2 1", "3 1", "2 0", "3 0"])


class Refused(unittest.TestCase):
    def test_a_schedule_that_can_not_be_folded_is_refused(self) -> None:
        from_any = "num_ranks 4 rank 0 { send 1b to 2 } rank 1 { send 1b to 2 } rank 3 { send 1b to 2 } "
        for text, nodes, cards, why in (
                (from_any + "rank 2 { recv 1b from any recv 1b from 1 }", "nodes 2 of 2", ONE,
                 "operation 1 of rank 2, a receive from 1 with tag 0, cannot be folded: another receive there takes from any"),
                (from_any + "rank 2 { recv 1b from any }", "nodes 2 of 2", ONE,
                 "operation 0 of rank 2, a receive from any, cannot be folded: its message may come from its node or over a card"),
                ("num_ranks 3", "nodes 2 of 2", ONE, "the machine has 4 ranks, and the schedule has 3"),
                ("num_ranks 300 " + " ".join(f"rank {rank} {{ calc 1 }}" for rank in range(300)), "nodes 1 of 300", ONE,
                 "node 0 needs 300 cpus, and has at most 256"),
                ("num_ranks 256 " + " ".join(f"rank {rank} {{ send 1b to {rank} nic 1 send 1b to {rank} }}" for rank in range(256)), "nodes 1 of 256",
                 OWN, "node 0 needs 512 cards and paths inside, and has at most 256")):
            with self.assertRaises(command.Fault) as told:
                run_by(text, read("", CLASSES + nodes), cards)
            self.assertTrue(str(told.exception).startswith(why), str(told.exception))

    def test_receives_from_any_are_folded_if_possible(self) -> None:
        text = "num_ranks 4 rank 0 { send 1b to 2 } rank 1 { send 1b to 2 } rank 2 { recv 1b from any recv 1b from any }"
        lines = run_by(text, read("", CLASSES + "nodes 2 of 2"), ONE)
        self.assertIn("op 1 0 send start 50 end 150 match 2 1", lines)


class Words(unittest.TestCase):
    description = CLASSES + "nodes 2 of 2\ncards 1\n"
    schedule = "num_ranks 4\nrank 0 { send 1000b to 2 }\nrank 1 { send 1000b to 3 }\nrank 2 { recv 1000b from 0 }\nrank 3 { recv 1000b from 1 }\n"

    def ended(self, tool: str, *words: str, text: str = "", cwd: Optional[str] = None) -> "subprocess.CompletedProcess[str]":
        return tool_calls.called(tool, *words, given=text, cwd=cwd)

    def test_the_folded_text_the_run_and_a_picture(self) -> None:
        with tempfile.TemporaryDirectory() as folder:
            for name, text in (("schedule", self.schedule), ("cluster", self.description)):
                with open(os.path.join(folder, name), "w", encoding="utf-8") as file:
                    file.write(text)
            ended = self.ended("fold", "schedule", "cluster", "--machine", "machine", "-o", "folded", cwd=folder)
            self.assertEqual((ended.returncode, ended.stdout, ended.stderr), (0, "", ""))
            with open(os.path.join(folder, "folded"), encoding="utf-8") as file:
                self.assertEqual(file.read(), "num_ranks 2\nrank 0 {\nr0_0: send 1000b to 1\nr1_0: send 1000b to 1 tag 1 cpu 1\n}\n"
                                              "rank 1 {\nr2_0: recv 1000b from 0\nr3_0: recv 1000b from 0 tag 1 cpu 1\n}\n")
            self.assertIn("r1_0: send", self.ended("locate", "folded", "0", "1", cwd=folder).stdout)
            answer = program.call(GOAL, ["nodes", os.path.join(folder, "folded"), os.path.join(folder, "machine")])
            run = self.ended("fold", "schedule", "cluster", "--run", cwd=folder)
            self.assertEqual((run.returncode, answer.out.splitlines()[0]), (0, "ranks 2 ops 4 stuck 0 unread 0 finish 3248"))
            self.assertEqual(run.stdout.splitlines()[0], "ranks 4 ops 4 stuck 0 unread 0 finish 3248")
            stdin = self.ended("fold", "-", "cluster", "--run", text=self.schedule, cwd=folder)
            self.assertEqual(stdin.stdout, run.stdout)
            with open(os.path.join(folder, "run"), "w", encoding="utf-8") as file:
                file.write(run.stdout)
            drawn = self.ended("timeline", "schedule", "--machine", "cluster", cwd=folder)
            self.assertEqual(drawn.stdout, self.ended("timeline", "schedule", "--machine", "cluster", "--run", "run", cwd=folder).stdout)
            self.assertIn("finish 3,248 ns", drawn.stdout)

    def test_a_stuck_run_ends_with_status_1(self) -> None:
        with tempfile.NamedTemporaryFile("w") as file:
            file.write(self.description)
            file.flush()
            ended = self.ended("fold", "-", file.name, "--run", text="num_ranks 4 rank 0 { recv 8b from 1 }")
            self.assertEqual((ended.returncode, ended.stdout.splitlines()[-1]), (1, "stuck 0 0 alone"))
            for words, why in ((["--cards", "0"], "`cards 0`: a node has at least one card"), (["--cards", "2 in row"], "write `cards own`"),
                               (["--placement", "none"], "argument --placement")):
                ended = self.ended("fold", "-", file.name, *words, text="num_ranks 4")
                self.assertEqual((ended.returncode, ended.stderr.count("\n")), (2, 1))
                self.assertTrue(ended.stderr.startswith(f"fold: {why}"), ended.stderr)


class Placements(unittest.TestCase):
    def test_ranks_are_placed_on_nodes_of_the_same_sizes(self) -> None:
        cluster = read("", CLASSES + "node 0 5 3\nnode 1\nnode 2 4\n")
        self.assertEqual(cluster.placed("block").machine.nodes, [0, 0, 0, 1, 2, 2])
        self.assertEqual(cluster.placed("cyclic").machine.nodes, [0, 1, 2, 0, 2, 0])

    def test_placements_equal_those_of_a_description(self) -> None:
        block, cyclic = (read("", CLASSES + f"nodes 3 of 4{how}\n") for how in ("", " cyclic"))
        self.assertEqual(block.placed("cyclic").machine.nodes, cyclic.machine.nodes)
        self.assertEqual(cyclic.placed("block").machine.nodes, block.machine.nodes)


if __name__ == "__main__":
    unittest.main(verbosity=0)
