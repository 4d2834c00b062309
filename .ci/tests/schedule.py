#!/usr/bin/env python3
"""Tests of tools/schedule. Each algorithm is certified for many ranks, roots, segments and sizes, and in each segment.
It has the messages, bytes and sums of its table. A schedule with a damaged slot, dependency or tag is refused."""
from __future__ import annotations

import os
import random
import re
import subprocess
import sys
import unittest
from typing import Iterator
from unittest import mock

TOP = os.path.dirname(os.path.dirname(os.path.dirname(os.path.abspath(__file__))))
sys.path[:0] = [os.path.join(TOP, "tools"), os.path.join(TOP, ".ci")]
import tool_calls
import segmented
from algorithms import plan
from algorithms.collectives import Wish
from algorithms.table import ALGORITHMS, Algorithm, printed
from common import command, program
from common.limits import ROOTED

GOAL = program.chosen()
SEED = 20261129
SIZES = (0, 1, 7, 1000, 65537)
LARGER = (32, 33)


def allowed(algorithm: Algorithm, ranks: int) -> bool:
    if algorithm.limit == "even":
        return ranks % 2 == 0
    return algorithm.limit == "any" or ranks & (ranks - 1) == 0


def wishes(algorithm: Algorithm) -> Iterator[Wish]:
    """Wishes with 1 to 20 ranks and some more, all roots of few ranks, 1 to 8 segments, several sizes of nodes, and
    random sizes."""
    draw = random.Random(SEED)
    for ranks in (*range(1, 21), *LARGER):
        if not allowed(algorithm, ranks):
            continue
        roots = range(ranks) if ranks <= 6 else (0, 1, draw.randrange(ranks), ranks - 1)
        pairs = [(root, 1 + (ranks + root) % 8) for root in roots] if "root" in algorithm.options else [
            (0, segments) for segments in ((1, 2, 3, 8) if ranks <= 8 else (1, 2))]
        if "segments" not in algorithm.options:
            pairs = sorted({(root, 1) for root, _ in pairs})
        for root, segments in pairs:
            for node in ((1, 2, 3, 8) if "node" in algorithm.options else (1,)):
                yield Wish(ranks, draw.choice(SIZES), root, segments, node, draw.choice((0, 250)))


def words_of(algorithm: Algorithm, wish: Wish) -> list[str]:
    return ["--root", str(wish.root)] if algorithm.kind() in ROOTED else []


def segments_of(algorithm: Algorithm, wish: Wish) -> int:
    """The number of slots into which the vector is cut."""
    return len(algorithm.make(wish).sizes) if algorithm.kind() in ("bcast", "allreduce") else 1


def verdict(algorithm: Algorithm, wish: Wish, text: str) -> str:
    words = ["certify", algorithm.kind(), "/dev/stdin", *words_of(algorithm, wish)]
    return program.expect(program.call(GOAL, words, text), program.DONE, program.NOT_CERTIFIED).out.strip()


def fault_in(algorithm: Algorithm, wish: Wish, text: str) -> str | None:
    """The fault of the first segment that is not certified, or None."""
    segments = segmented.Segments(GOAL, algorithm.kind(), text, wish.root)
    if segments.fault:
        return segments.fault
    return next((fault for _, fault in segments.verdicts(segments_of(algorithm, wish)) if fault), None)


class Certified(unittest.TestCase):
    def test_each_is_certified(self) -> None:
        """A certified schedule ends, in every order and whichever messages are eager."""
        for algorithm in ALGORITHMS:
            for wish in wishes(algorithm):
                with self.subTest(f"{algorithm.name} {wish}"):
                    made, counts = algorithm.make(wish), algorithm.counts(wish)
                    text = "".join(made.text())
                    self.assertEqual(verdict(algorithm, wish, text), f"certified {algorithm.kind()} ranks {wish.ranks}")
                    self.assertEqual((counts.operations, counts.adds), (made.operations, text.count(" adds ")))
                    moved = sum(int(high) - int(low) + 1 for low, high in re.findall(r"moves (\d+) to (\d+)", text))
                    self.assertLessEqual(2 * counts.slots, moved)

    def test_each_segment_is_certified(self) -> None:
        for algorithm in ALGORITHMS:
            if algorithm.kind() in ("bcast", "allreduce"):
                for wish in wishes(algorithm):
                    if wish.ranks <= 9 and wish.segments <= 4:
                        with self.subTest(f"{algorithm.name} {wish}"):
                            self.assertIsNone(fault_in(algorithm, wish, "".join(algorithm.make(wish).text())))

    def test_some_are_certified_for_256_ranks(self) -> None:
        for algorithm in ALGORITHMS:
            if algorithm.name in ("bcast-binary", "allreduce-halving-doubling", "allgather-bruck", "alltoall-bruck", "gather-tree"):
                wish = Wish(256, 1001)
                text = "".join(algorithm.make(wish).text())
                self.assertEqual(verdict(algorithm, wish, text), f"certified {algorithm.kind()} ranks 256", algorithm.name)

    def test_the_text_is_canonical(self) -> None:
        for algorithm in ALGORITHMS:
            text = "".join(algorithm.make(Wish(8, 1001, sum_ps=333)).text())
            self.assertEqual(program.call(GOAL, ["show", "/dev/stdin"], text).out, text, algorithm.name)


def changed(text: str, line: int, new: str | None) -> str:
    """The text with the line of this number replaced by `new`, or removed if `new` is None."""
    lines = text.split("\n")
    return "\n".join(lines[:line] + ([] if new is None else [new]) + lines[line + 1:])


def lines_with(text: str, form: str) -> list[int]:
    return [number for number, line in enumerate(text.split("\n")) if re.search(form, line)]


class Spoilt(unittest.TestCase):
    """Changes at random places in schedules of six and of eight ranks."""

    def cases(self) -> Iterator[tuple[random.Random, Algorithm, Wish, str]]:
        draw = random.Random(SEED)
        for algorithm in ALGORITHMS:
            for ranks in (6, 8):
                if allowed(algorithm, ranks):
                    segments = 2 if "segments" in algorithm.options else 1
                    wish = Wish(ranks, 1000, segments=segments, node=3 if "node" in algorithm.options else 1)
                    yield draw, algorithm, wish, "".join(algorithm.make(wish).text())

    def test_a_note_with_another_slot_is_refused(self) -> None:
        """The note gets the next slot. In a broadcast, a rank may put a piece that it already has anywhere except into
        another piece, so only slots of pieces are tried."""
        for draw, algorithm, wish, text in self.cases():
            pieces = segments_of(algorithm, wish) if algorithm.kind() == "bcast" else 1 << 16
            lines = [line for line in lines_with(text, "moves|adds") if int(text.split("\n")[line].split()[-1]) + 1 < pieces]
            for line in draw.sample(lines, 4):
                label, word, low, _, high = text.split("\n")[line].split()
                other = f"{label} {word} {int(low) + 1} to {int(high) + (word == 'moves')}"
                with self.subTest(f"{algorithm.name} {wish}: line {line + 1} is {other}"):
                    self.assertIsNotNone(fault_in(algorithm, wish, changed(text, line, other)))

    def test_each_dependency_except_those_of_steps_is_needed(self) -> None:
        for draw, algorithm, wish, text in self.cases():
            if algorithm.name != "alltoall-pairwise":
                needs = lines_with(text, "requires")
                for line in draw.sample(needs, min(6, len(needs))):
                    with self.subTest(f"{algorithm.name} {wish}: without line {line + 1}"):
                        self.assertRegex(verdict(algorithm, wish, changed(text, line, None)), "^not certified: race ")

    def test_another_tag_is_refused(self) -> None:
        for draw, algorithm, wish, text in self.cases():
            for line in draw.sample(lines_with(text, "tag"), 3):
                other = re.sub(r"tag (\d+)", lambda tag: f"tag {int(tag[1]) + 1}", text.split("\n")[line])
                with self.subTest(f"{algorithm.name} {wish}: line {line + 1} is {other}"):
                    self.assertRegex(verdict(algorithm, wish, changed(text, line, other)), "^not certified: (unpaired|double)")


# By algorithm, the number of messages and of all their bytes, which the formulas of the table give for P = 8, K = 2, N = 4,
# so M = 2, n = 8000 and b = 1000.
EXPECTED = {
    "bcast-chain": (7 * 2, 7 * 8000),
    "bcast-binary": (7 * 2, 7 * 8000),
    "bcast-scatter-allgather": (7 * 9, 7 * 8000 + 8000 // 2 * 3),
    "allreduce-ring": (2 * 8 * 7 * 2, 2 * 7 * 8000),
    "allreduce-halving-doubling": (2 * 8 * 3, 2 * 7 * 8000),
    "allreduce-halving-doubling-near": (2 * 8 * 3, 2 * 7 * 8000),
    "allreduce-hierarchical": (2 * 8 * 3, 2 * 7 * 8000),
    "allreduce-reduce-bcast": (2 * 7 * 2, 2 * 7 * 8000),
    "allreduce-two-level": (2 * 6 + 2 * 2, 2 * 7 * 8000),
    "allgather-doubling": (8 * 3, 8 * 7 * 1000),
    "allgather-bruck": (8 * 3, 8 * 7 * 1000),
    "allgather-neighbour": (8 * 8 // 2, 8 * 7 * 1000),
    "alltoall-bruck": (8 * 3, 8 * 8 // 2 * 3 * 1000),
    "alltoall-pairwise": (8 * 7, 8 * 7 * 1000),
    "barrier-tree": (2 * 7, 2 * 7 * 1000),
    "gather-tree": (7, 8 // 2 * 3 * 1000),
    "scatter-tree": (7, 8 // 2 * 3 * 1000),
}


class Table(unittest.TestCase):
    def sends(self, name: str, wish: Wish) -> list[int]:
        algorithm = next(algorithm for algorithm in ALGORITHMS if algorithm.name == name)
        return [int(size) for size in re.findall(r": send (\d+)b", "".join(algorithm.make(wish).text()))]

    def test_messages_and_bytes_are_those_of_the_table(self) -> None:
        self.assertEqual(set(EXPECTED), {algorithm.name for algorithm in ALGORITHMS})
        for algorithm in ALGORITHMS:
            wish = Wish(8, 8000 if algorithm.kind() in ("bcast", "allreduce") else 1000, node=4,
                        segments=2 if "segments" in algorithm.options else 1)
            sends = self.sends(algorithm.name, wish)
            self.assertEqual((len(sends), sum(sends)), EXPECTED[algorithm.name], algorithm.name)

    def test_six_ranks_of_which_four_take_part(self) -> None:
        sends = self.sends("allreduce-halving-doubling", Wish(6, 4000))
        self.assertEqual((len(sends), sum(sends)), (2 * 4 * 2 + 2 * 2, 2 * 5 * 4000))

    def crossings(self, name: str, wish: Wish, node: int) -> tuple[int, int]:
        """The bytes of all messages between nodes, and the size of the largest of them."""
        algorithm = next(algorithm for algorithm in ALGORITHMS if algorithm.name == name)
        sizes, source = [], 0
        for line in "".join(algorithm.make(wish).text()).splitlines():
            words = line.split()
            source = int(words[1]) if words[0] == "rank" else source
            if words[1:2] == ["send"] and source // node != int(words[4]) // node:
                sizes.append(int(words[2][:-1]))
        return sum(sizes), max(sizes)

    def test_bytes_between_nodes(self) -> None:
        """In each half, a rank sends three quarters of the vector to other nodes if the largest messages go far. It
        sends three sixteenths if they stay near, or if the sums of a node are made inside it."""
        self.assertEqual(self.crossings("allreduce-halving-doubling", Wish(16, 16000), 4), (2 * 12 * 16000, 8000))
        self.assertEqual(self.crossings("allreduce-halving-doubling-near", Wish(16, 16000), 4), (2 * 3 * 16000, 2000))
        self.assertEqual(self.crossings("allreduce-hierarchical", Wish(16, 16000, node=4), 4), (2 * 3 * 16000, 2000))
        self.assertEqual(self.crossings("allreduce-hierarchical", Wish(18, 18000, node=6), 6), (2 * 2 * 18000, 1000))

    def test_pieces_differ_by_a_byte(self) -> None:
        self.assertEqual(self.sends("bcast-chain", Wish(2, 10, segments=4)), [2, 3, 2, 3])

    def test_a_sum_is_rounded_up(self) -> None:
        algorithm = next(algorithm for algorithm in ALGORITHMS if algorithm.name == "allreduce-reduce-bcast")
        text = "".join(algorithm.make(Wish(2, 1001, sum_ps=333)).text())
        self.assertEqual(re.findall(r": calc (\d+)", text), ["334"])

    def test_a_plan_over_the_limits_is_a_fault(self) -> None:
        for most, what in (("MOST_OPERATIONS", "operations"), ("MOST_NEEDS", "dependencies"), ("MOST_NOTES", "notes")):
            with mock.patch.object(plan, most, 5), self.assertRaisesRegex(command.Fault, f"^more than 5 {what}: "):
                ALGORITHMS[0].make(Wish(9, 8, segments=2))

    def test_a_plan_that_is_too_large_is_refused_before_it_is_made(self) -> None:
        for name, wish, what in (("allreduce-ring", Wish(2048, 8), "1048576 operations"), ("allreduce-halving-doubling", Wish(1024, 8), "1048576 notes"),
                                 ("allgather-doubling", Wish(32768, 8), "67108864 slots in messages")):
            algorithm = next(algorithm for algorithm in ALGORITHMS if algorithm.name == name)
            with mock.patch.object(plan.Plan, "exchange", self.fail), self.assertRaisesRegex(command.Fault, f"^more than {what}: take fewer ranks"):
                algorithm.make(wish)

    def test_the_document_has_the_table(self) -> None:
        with open(os.path.join(TOP, "docs", "COLLECTIVES.md"), encoding="utf-8") as file:
            self.assertIn(printed(), file.read())


class Words(unittest.TestCase):
    def ended(self, *words: str) -> subprocess.CompletedProcess[str]:
        return tool_calls.called("schedule", *words)

    def test_the_list_is_the_table(self) -> None:
        self.assertEqual(self.ended("--list").stdout.strip(), printed())

    def test_faults_are_one_line(self) -> None:
        for words, why in (
                ("bcast-chain 4 8 --root 4", "--root 4 is not one of 4 ranks"),
                ("bcast-chain 4 8 --node 2", "bcast-chain takes no --node"),
                ("barrier-tree 4 8 --sum-ps 2", "barrier-tree takes no --sum-ps"),
                ("allgather-doubling 6 8", "allgather-doubling needs a power of two of ranks"),
                ("allgather-neighbour 7 8", "allgather-neighbour needs an even number of ranks"),
                ("bcast-chain 2 1099511627775 --segments 1", None),
                ("gather-tree 4 1099511627775", "a message of 2199023255550 bytes: it has at most 1099511627775"),
                ("allreduce-reduce-bcast 2 1099511627775 --sum-ps 999999999", "a sum of"),
                ("bcast-chain 0 8", "argument RANKS: '0' is not a number of ranks from 1 to 65536"),
                ("bcast-line 4 8", "argument ALGORITHM: invalid choice")):
            ended = self.ended(*words.split())
            if why is None:
                self.assertEqual((ended.returncode, ended.stderr), (0, ""), words)
            else:
                self.assertEqual((ended.returncode, ended.stdout, ended.stderr.count("\n")), (2, "", 1), words)
                self.assertTrue(ended.stderr.startswith(f"schedule: {why}"), ended.stderr)


if __name__ == "__main__":
    unittest.main(verbosity=0)
