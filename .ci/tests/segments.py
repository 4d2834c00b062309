#!/usr/bin/env python3
"""Tests of tools/segments. Correct segments are certified. Each damaged one is reported in the slot numbers of the
schedule, also if it gets data of another segment. With a damaged note, the tool finds all faults that a check of every
slot finds."""
from __future__ import annotations

import os
import random
import re
import subprocess
import sys
import tempfile
import unittest
from typing import Callable, Iterator

TOP = os.path.dirname(os.path.dirname(os.path.dirname(os.path.abspath(__file__))))
sys.path[:0] = [os.path.join(TOP, "tools"), os.path.join(TOP, ".ci")]
import tool_calls
import segmented
from algorithms.collectives import Wish, bcast_chain
from algorithms.table import ALGORITHMS, Algorithm
from common import program
from common.canonical import read_canonical
from common.limits import ROOTED

GOAL = program.chosen()
SEED = 20261201


def made(kind: str, ranks: int, *options: str) -> str:
    return program.expect(program.call(GOAL, ["gen", kind, str(ranks), "8", *options]), program.DONE).out


def side_by_side(text: str, count: int, width: int, spare: int) -> str:
    """A schedule that does `count` copies of a generated schedule at once. The slots below `width` of each copy are a
    block of their own; the `spare` other slots of each copy follow after all blocks. Each copy has its own tags."""
    blocks: dict[str, list[str]] = {}
    for copy in range(count):
        shift = f"_{copy}"

        def own(slot: int) -> int:
            return copy * width + slot if slot < width else count * width + copy * spare + slot - width

        for line in text.splitlines()[1:]:
            words = line.split()
            if words[0] == "rank":
                block = blocks.setdefault(words[1], [])
            elif words[0] == "}":
                continue
            elif words[1] in ("moves", "adds"):
                low, high = int(words[2]), int(words[4])
                pairs = [(low, high)] if words[1] == "adds" else [(slot, slot) for slot in range(low, high + 1)]
                block.extend(f"{words[0]}{shift} {words[1]} {own(one)} to {own(other)}" for one, other in pairs)
            elif words[1] == "requires":
                block.append(f"{words[0]}{shift} requires {words[2]}{shift}")
            else:
                if "tag" in words:
                    words[6] = str(int(words[6]) * count + copy)
                block.append(" ".join([words[0][:-1] + shift + ":", *words[1:]]))
    lines = [text.splitlines()[0]]
    for rank, block in blocks.items():
        lines += [f"rank {rank} {{", *block, "}"]
    return "\n".join(lines) + "\n"


def canonical(text: str) -> str:
    return program.expect(program.call(GOAL, ["show", "/dev/stdin"], text), program.DONE).out


class Exchange(unittest.TestCase):
    def test_ranges_are_split_where_the_exchange_divides_them(self) -> None:
        text = "l1 moves 1 to 7\nl2 adds 5 to 2\nl1 moves 6 to 6\n"
        for block, width, wanted in (
                (2, 2, "l1 moves 5 to 5\nl1 moves 2 to 3\nl1 moves 0 to 1\nl1 moves 6 to 7\nl2 adds 1 to 2\nl1 moves 6 to 6\n"),
                (0, 2, text),
                (3, 1, "l1 moves 1 to 2\nl1 moves 0 to 0\nl1 moves 4 to 7\nl2 adds 5 to 2\nl1 moves 6 to 6\n")):
            said = segmented.exchanged(text, block, width)
            if block:
                self.assertEqual(said, wanted)
            self.assertEqual(slots(said), [segmented.exchange(slot, block, width) for slot in slots(text)])

    def test_an_exchange_done_twice_changes_nothing(self) -> None:
        text = canonical(side_by_side(made("gather", 5), 3, 5, 0))
        for block in range(3):
            twice = segmented.exchanged(segmented.exchanged(text, block, 5), block, 5)
            self.assertEqual(slots(twice), slots(text))


def slots(text: str) -> list[int]:
    """All slots in the notes, in order."""
    found: list[int] = []
    for _, word, low, high in segmented.NOTE.findall(text):
        found += [int(low), int(high)] if word == "adds" else range(int(low), int(high) + 1)
    return found


# For each collective, its number of slots for a number of ranks, and the number of spare slots of its schedule.
KINDS: dict[str, tuple[Callable[[int], int], int]] = {
    "bcast": (lambda ranks: 1, 0), "barrier": (lambda ranks: 1, 9), "allgather": (lambda ranks: ranks, 0),
    "allreduce": (lambda ranks: 1, 9), "alltoall": (lambda ranks: 2 * ranks, 0), "reduce": (lambda ranks: 1, 9),
    "gather": (lambda ranks: ranks, 0), "scatter": (lambda ranks: ranks, 0), "reduce_scatter": (lambda ranks: ranks, 9),
    "scan": (lambda ranks: 1, 9),
}


def faults_of(kind: str, text: str, count: int, root: int = 0) -> str | list[str | None]:
    """The fault of each segment, or None; or a fault of all segments."""
    segments = segmented.Segments(GOAL, kind, canonical(text), root)
    if segments.fault:
        return segments.fault
    return [fault for blocks, fault in segments.verdicts(count) for _ in blocks]


class Segments(unittest.TestCase):
    def test_each_collective_in_three_segments(self) -> None:
        for kind, (width, spare) in KINDS.items():
            for ranks in (1, 2, 3, 4, 5, 8):
                if kind == "allreduce" and ranks & (ranks - 1):
                    continue
                root = ranks // 2 if kind in ROOTED else 0
                options = ["--root", str(root)] if kind in ROOTED else []
                text = side_by_side(made(kind, ranks, *options), 3, width(ranks), spare)
                with self.subTest(f"{kind} {ranks}"):
                    segments = segmented.Segments(GOAL, kind, canonical(text), root)
                    self.assertEqual((segments.width, faults_of(kind, text, 3, root)), (width(ranks), [None] * 3))
                    if ranks > 1:
                        self.assertEqual((segments.count(), segments.left_out(3)), (3, None))

    def test_each_damaged_segment_is_found(self) -> None:
        whole = "".join(bcast_chain(Wish(4, 100, segments=8)).text())
        for spoilt in range(1, 8):
            text = whole.replace(f"moves {spoilt} to {spoilt}", "moves 8 to 8")
            self.assertTrue(program.call(GOAL, ["certify", "bcast", "/dev/stdin"], text).out.startswith("certified"))
            wanted = [f"wrong 1 slot {spoilt}" if block == spoilt else None for block in range(8)]
            self.assertEqual(faults_of("bcast", text, 8), wanted)

    def test_a_damaged_block_of_slots_is_found(self) -> None:
        text = side_by_side(made("allgather", 3), 2, 3, 0).replace("moves 4 to 4", "moves 9 to 9")
        self.assertEqual(faults_of("allgather", text, 2), [None, "wrong 0 slot 4"])

    def test_a_race_is_reported_once_in_the_numbers_of_the_schedule(self) -> None:
        text = "".join(bcast_chain(Wish(3, 100, segments=3)).text()).replace("l4 requires l3\n", "")
        self.assertEqual(faults_of("bcast", text, 3), "race 1 2 and 1 3 slot 1")

    def test_segments_that_no_note_touches_are_one_range(self) -> None:
        segments = segmented.Segments(GOAL, "bcast", canonical("".join(bcast_chain(Wish(3, 100, segments=2)).text())))
        said = [(list(blocks), fault) for blocks, fault in segments.verdicts(5)]
        self.assertEqual(said, [([0], None), ([1], None), ([2, 3, 4], "wrong 1 slot 2")])

    def test_data_of_another_segment_is_found(self) -> None:
        both = side_by_side(made("reduce", 2), 2, 1, 9)
        for mixed, faults in (("c adds 1 to 0", ["mixed 0 slot 0", None]), ("c adds 0 to 1", [None, "mixed 0 slot 1"])):
            last = "c: calc 0 c requires l2_0 c requires l2_1 " + mixed
            text = both.replace("rank 0 {", f"rank 0 {{ {last}", 1)
            self.assertEqual(faults_of("reduce", text, 2), faults)

    def test_mixed_segments_are_those_that_certify_finds_with_filled_blocks(self) -> None:
        """On schedules with random sums across segments: the tool follows data itself, and `certify` follows data of
        other blocks if these are filled at the start."""
        draw = random.Random(SEED)
        found = 0
        for kind in ("reduce", "allgather", "alltoall", "scan"):
            width, spare = KINDS[kind]
            for _ in range(12):
                ranks = draw.randrange(2, 4)
                text = with_sums(draw, side_by_side(made(kind, ranks), 2, width(ranks), spare), 2 * width(ranks))
                segments = segmented.Segments(GOAL, kind, text)
                alone = [segments.verdict(block) for block in range(2)]
                mixed = segments.mixed(2)
                for block in (0, 1):
                    if alone[block] is None:
                        theirs = segments._certify(filled(segmented.exchanged(text, block, segments.width), [1], segments.width))
                        self.assertEqual(mixed.get(block) is None, theirs is None, (kind, ranks, text))
                        found += theirs is not None
        self.assertGreater(found, 5)

    def test_weights_of_segments_are_not_added(self) -> None:
        # (three segments of a barrier of one rank that doubles each value 23 times: each weighs 2^23, so two would weigh
        # 2^24)
        doubled = "".join(f"l1 adds {slot} to {slot}\n" * 23 for slot in range(3))
        self.assertEqual(faults_of("barrier", f"num_ranks 1 rank 0 {{ l1: calc 0\n{doubled}}}", 3), [None] * 3)

    def test_the_limit_on_operations_is_that_of_certify(self) -> None:
        text = "num_ranks 1 rank 0 {{ {0} l: calc 0 l adds 0 to 0 l adds 1 to 1 }}"
        self.assertEqual(faults_of("barrier", text.format("calc 0 " * 2047), 2), [None, None])
        self.assertEqual(faults_of("barrier", text.format("calc 0 " * 2048), 2), "too large 0")


def filled(text: str, blocks: list[int], width: int) -> str:
    """The canonical text, changed so that each rank first copies the contents of its first `width` slots to these
    blocks."""
    notes = "".join(f"copy adds {slot} to {block * width + slot}\n" for block in blocks for slot in range(width))

    def begun(block: re.Match[str]) -> str:
        needs = "".join(f"{label} requires copy\n" for label in re.findall(r"^(l\d+): ", block[1], re.MULTILINE))
        return f"{block[0][:-1]}copy: calc 0\n{needs}{notes}}}"

    return re.sub(r"^rank \d+ \{\n(.*?)^\}$", begun, text, flags=re.MULTILINE | re.DOTALL)


def with_sums(draw: random.Random, text: str, slots: int) -> str:
    """The canonical text, changed so that a random rank finally adds one random slot to another."""
    rank = draw.randrange(2)
    source, target = draw.sample(range(slots), 2)

    def ended(block: re.Match[str]) -> str:
        needs = "".join(f"sum requires {label}\n" for label in re.findall(r"^(l\d+): ", block[0], re.MULTILINE))
        return f"{block[0][:-1]}sum: calc 0\n{needs}sum adds {source} to {target}\n}}"

    text = re.sub(rf"^rank {rank} \{{\n(.*?)^\}}$", ended, canonical(text), flags=re.MULTILINE | re.DOTALL)
    return canonical(text)


class Count(unittest.TestCase):
    def test_the_count_is_that_of_the_pieces(self) -> None:
        for algorithm, wish, text in segmented_schedules():
            segments = segmented.Segments(GOAL, algorithm.kind(), text, wish.root)
            self.assertEqual((segments.count(), segments.left_out(segments.count())), (len(algorithm.make(wish).sizes), None))

    def test_generated_schedules_have_one_segment(self) -> None:
        for kind in KINDS:
            segments = segmented.Segments(GOAL, kind, made(kind, 8))
            self.assertEqual((segments.count(), segments.left_out(1)), (1, None), kind)

    def test_a_slot_that_only_passes_data_on_is_in_no_segment(self) -> None:
        text = ("num_ranks 2 rank 0 { c: calc 0 c adds 0 to 5 s: send 8b to 1 s moves 5 to 5 s requires c }"
                "rank 1 { r: recv 8b from 0 r moves 7 to 7 c: calc 0 c requires r c adds 7 to 0 }")
        segments = segmented.Segments(GOAL, "bcast", canonical(text))
        self.assertEqual((segments.count(), segments.left_out(1), list(segments.verdicts(1))), (1, None, [(range(1), None)]))


def segmented_schedules() -> Iterator[tuple[Algorithm, Wish, str]]:
    """For each algorithm that cuts its vector, schedules of few ranks, with their wishes."""
    for algorithm in ALGORITHMS:
        if algorithm.kind() in ("bcast", "allreduce"):
            for ranks in (2, 3, 4):
                wish = Wish(ranks, 100, root=ranks - 1 if "root" in algorithm.options else 0,
                            segments=3 if "segments" in algorithm.options else 1, node=2 if ranks > 2 else 1)
                yield algorithm, wish, canonical("".join(algorithm.make(wish).text()))


def is_wrong(draw: random.Random, algorithm: Algorithm, wish: Wish, text: str) -> bool:
    """Whether a slot ends with wrong contents, or an operation does not end, in a random order of execution. It checks
    every slot, for collectives that have one slot per segment."""
    ops = read_canonical(text.splitlines()).ops
    count = len(algorithm.make(wish).sizes)
    is_bcast = algorithm.kind() == "bcast"
    held = {(rank, slot): [(rank, slot)] for rank in range(wish.ranks) for slot in range(count) if not is_bcast or rank == wish.root}
    done, sent, left = set(), {}, set(ops)
    while left:
        able = [key for key in sorted(left) if all((key[0], number) in done for number, _ in ops[key].needs)
                and (ops[key].kind != "recv" or (int(ops[key].peer), key[0], ops[key].tag) in sent)]
        if not able:
            return True
        key = draw.choice(able)
        op = ops[key]
        if op.kind == "send":
            sent[key[0], int(op.peer), op.tag] = [held.get((key[0], slot), []) for slot in op.moved()]
        elif op.kind == "recv":
            values = sent[int(op.peer), key[0], op.tag]
            if len(values) != len(op.moved()):
                return True
            held.update(zip(((key[0], slot) for slot in op.moved()), values))
        else:
            for source, target in op.notes:
                held[key[0], target] = sorted(held.get((key[0], target), []) + held.get((key[0], source), []))
        done.add(key)
        left.remove(key)
    return any(held.get((rank, slot), []) != ([(wish.root, slot)] if is_bcast else [(one, slot) for one in range(wish.ranks)])
               for rank in range(wish.ranks) for slot in range(count))


def is_certified(kind: str, text: str, root: int) -> bool:
    """Whether the tool certifies the schedule, with the segments that it finds."""
    segments = segmented.Segments(GOAL, kind, text, root)
    if segments.fault:
        return False
    count = segments.count()
    return segments.left_out(count) is None and all(fault is None for _, fault in segments.verdicts(count))


class Spoilt(unittest.TestCase):
    def test_all_faults_of_a_check_of_every_slot_are_found(self) -> None:
        """For each algorithm that cuts its vector, each note in turn gets other slots at random, of the same number."""
        draw = random.Random(SEED)
        found = tried = 0
        for algorithm, wish, text in segmented_schedules():
            most = max(int(slot) for slot in re.findall(r"to (\d+)$", text, re.MULTILINE)) + 3
            for note in segmented.NOTE.finditer(text):
                low, high = int(note[3]), int(note[4])
                if note[2] == "moves":
                    start = draw.choice([slot for slot in range(most) if slot != low])
                    other = f"{note[1]} moves {start} to {start + high - low}"
                else:
                    pair = [low, high]
                    pair[draw.randrange(2)] = draw.randrange(most)
                    other = f"{note[1]} adds {pair[0]} to {pair[1]}"
                spoilt = text[:note.start()] + other + text[note.end():]
                tried += 1
                if any(is_wrong(draw, algorithm, wish, spoilt) for _ in range(3)):
                    found += 1
                    with self.subTest(f"{algorithm.name} {wish}: {note[0]} is {other}"):
                        self.assertFalse(is_certified(algorithm.kind(), spoilt, wish.root))
        self.assertGreater(found, 0.8 * tried)


class Words(unittest.TestCase):
    def ended(self, text: str, *words: str) -> subprocess.CompletedProcess[str]:
        with tempfile.NamedTemporaryFile("w") as file:
            file.write(text)
            file.flush()
            words = tuple(file.name if word == "FILE" else word for word in words)
            return tool_calls.called("segments", *words)

    def test_lines_and_statuses(self) -> None:
        text = "".join(bcast_chain(Wish(3, 100, 1, segments=2)).text())
        for count in ((), ["2"]):
            ended = self.ended(text, "bcast", "FILE", *count, "--root", "1")
            self.assertEqual((ended.returncode, ended.stderr), (0, ""))
            self.assertEqual(ended.stdout, "segment 0: certified\nsegment 1: certified\ncertified bcast ranks 3 segments 2\n")
        ended = self.ended(text, "bcast", "FILE", "3", "--root", "1")
        self.assertEqual(ended.returncode, 6)
        self.assertEqual(ended.stdout.splitlines()[2:], ["segment 2: not certified: wrong 0 slot 2", "not certified: 1 of 3 segments"])

    def test_a_fault_of_all_segments_is_one_line(self) -> None:
        text = "".join(bcast_chain(Wish(3, 100, segments=3)).text()).replace("l4 requires l3\n", "")
        ended = self.ended(text, "bcast", "FILE")
        self.assertEqual((ended.returncode, ended.stdout), (6, "not certified: race 1 2 and 1 3 slot 1\n"))

    def test_a_slot_in_no_segment_is_reported(self) -> None:
        text = "".join(bcast_chain(Wish(2, 100, segments=2)).text()) + "\n"
        ended = self.ended(text.replace("moves 1 to 1", "moves 7 to 7", 1), "bcast", "FILE")
        self.assertEqual((ended.returncode, ended.stdout.splitlines()[1:]), (6, [
            "segment 1: not certified: wrong 1 slot 1", "not certified: in no segment is slot 7, which operation 1 of rank 0 moves"]))

    def test_undecided_has_its_own_status(self) -> None:
        large = "num_ranks 1 rank 0 { " + "calc 0 " * 2049 + "}"
        ended = self.ended(large, "barrier", "FILE")
        self.assertEqual((ended.returncode, ended.stdout), (10, "undecided: too large 0\n"))
        heavy = "num_ranks 1 rank 0 { l: calc 0 " + "l adds 1 to 1 " * 25 + "}"
        ended = self.ended(heavy, "barrier", "FILE")
        self.assertEqual((ended.returncode, ended.stdout.splitlines()),
                         (10, ["segment 0: certified", "segment 1: undecided: weight 33554432", "undecided: 1 of 2 segments"]))

    def test_standard_input(self) -> None:
        text = "".join(bcast_chain(Wish(3, 100, segments=2)).text())
        for name in ("-", "/dev/stdin"):
            ended = tool_calls.called("segments", "bcast", name, given=text)
            self.assertEqual((ended.returncode, ended.stdout.splitlines()[-1]), (0, "certified bcast ranks 3 segments 2"))

    def test_faults_are_one_line(self) -> None:
        ring = "".join(bcast_chain(Wish(2, 100, segments=3)).text())
        for text, words, why in (
                ("num_ranks 1 rank", "bcast FILE 2", "goal: refused: text: syntax at 16"),
                ("num_ranks 1", "barrier FILE 2 --root 0", "barrier has no root"),
                ("num_ranks 3", "bcast FILE --root 3", "--root 3 is not a rank of this schedule"),
                ("num_ranks 300", "allgather FILE 300", "300 segments of 300 slots"),
                (ring, "bcast FILE 2", "2 segments of 1 slots leave out slot 2, which operation 2 of rank 0 moves"),
                ("num_ranks 1", "bcast FILE 1 --width 1", "unrecognized arguments: --width 1"),
                ("num_ranks 1", "bcast FILE --roo 0", "unrecognized arguments: --roo 0"),
                ("num_ranks 1", "bcast /no/such/file 2", "goal: reading failed"),
                ("num_ranks 1", "bcast FILE 0", "argument COUNT")):
            ended = self.ended(text, *words.split())
            self.assertEqual((ended.returncode, ended.stdout, ended.stderr.count("\n")), (2, "", 1), words)
            self.assertTrue(ended.stderr.startswith(f"segments: {why}"), ended.stderr)


if __name__ == "__main__":
    unittest.main(verbosity=0)
