#!/usr/bin/env python3
"""Tests of tools/check. It finds operations without a partner, with the most similar one; cycles; receives that compete
or are too small; and all of these at once. On random schedules, it finds a fault exactly if a run without eager sends
hangs."""
from __future__ import annotations

import os
import random
import sys
import unittest

TOP = os.path.dirname(os.path.dirname(os.path.dirname(os.path.abspath(__file__))))
sys.path[:0] = [os.path.join(TOP, "tools"), os.path.join(TOP, ".ci")]
import tool_calls
from common import program
from common.canonical import read_canonical
from common.faults import Flow, Matching, left_over, rings

GOAL = program.chosen()
SEED = 20261201


def checked(text: str, *words: str) -> tuple[int, list[str], str]:
    """The status of the tool, its lines, and its standard error."""
    done = tool_calls.called("check", "-", *words, given=text)
    return done.returncode, done.stdout.splitlines(), done.stderr


class Findings(unittest.TestCase):
    def said(self, text: str, *words: str) -> list[str]:
        status, lines, told = checked(text, *words)
        self.assertEqual((status, told), (6, ""))
        return lines

    def test_another_tag_size_or_rank_is_reported(self) -> None:
        for receive, wanted in (("recv 8b from 0 tag 7", "nearest, with another tag, 7"), ("recv 9b from 0 tag 7", "nearest, with another tag, 7 and another size, 9 bytes"),
                                ("recv 8b from 2", "nearest, with another rank, from 2")):
            lines = self.said(f"num_ranks 3 rank 0 {{ s: send 8b to 1 }} rank 1 {{ r: {receive} }}")
            self.assertEqual(lines, [f"no send fits: -:1:49: 1 0 is r: {receive}", "  " + lines[1].strip(), "no receive fits: -:1:22: 0 0 is s: send 8b to 1",
                                     f"  {wanted}: -:1:49: 1 0 is r: {receive}", "found: 2"])

    def test_the_nearest_is_the_one_that_differs_least(self) -> None:
        lines = self.said("num_ranks 3 rank 0 { send 8b to 1 tag 1 } rank 1 { a: recv 8b from 2 tag 1 b: recv 4b from 0 tag 2 c: recv 8b from 0 tag 3 }")
        self.assertIn("nearest, with another tag, 3: -:1:100: 1 2 is c", lines[lines.index(next(it for it in lines if it.startswith("no receive"))) + 1])

    def test_one_message_too_many(self) -> None:
        lines = self.said("num_ranks 2 rank 0 { send 8b to 1 send 8b to 1 } rank 1 { recv 8b from 0 }")
        self.assertEqual(lines, ["no receive fits: -:1:35: 0 1 is send 8b to 1", "found: 1"])

    def test_receives_that_compete(self) -> None:
        lines = self.said("num_ranks 3 rank 0 { send 8b to 1 } rank 2 { send 8b to 1 } rank 1 { a: recv 8b from any b: recv 8b from 0 }")
        self.assertEqual(lines, ["these can take the same message, so the order of arrival decides:", "  -:1:90: 1 1 is b: recv 8b from 0",
                                 "  -:1:70: 1 0 is a: recv 8b from any", "  the message: -:1:22: 0 0 is send 8b to 1", "found: 1"])

    def test_receives_of_one_pattern_do_not_compete(self) -> None:
        text = "num_ranks 3 rank 0 { send 8b to 1 } rank 2 { send 8b to 1 } rank 1 { recv 8b from any recv 8b from any }"
        self.assertEqual(checked(text), (0, ["nothing found: 3 ranks, 4 operations"], ""))

    def test_a_receive_smaller_than_its_message(self) -> None:
        lines = self.said("num_ranks 2 rank 0 { send 8b to 1 } rank 1 { recv 4b from any }")
        self.assertEqual(lines[:2], ["smaller than its message: -:1:46: 1 0 is recv 4b from any", "  the message: -:1:22: 0 0 is send 8b to 1"])

    def test_a_cycle_depends_on_the_greatest_eager_size(self) -> None:
        text = "num_ranks 2 rank 0 { s: send 8b to 1 r: recv 8b from 1 r requires s } rank 1 { s: send 8b to 0 r: recv 8b from 0 r requires s }"
        self.assertEqual(checked(text)[0], 0)
        lines = self.said(text, "--S", "0")
        self.assertEqual([line.split(": ", 1)[1] for line in lines[1:-1]], ["0 0 is s: send 8b to 1", "1 1 is r: recv 8b from 0",
                                                                             "1 0 is s: send 8b to 0", "0 1 is r: recv 8b from 1"])

    def test_a_wrong_tag_and_a_cycle_at_once(self) -> None:
        lines = self.said("num_ranks 4 rank 0 { s: send 8b to 1 r: recv 8b from 1 r requires s } rank 1 { s: send 8b to 0 r: recv 8b from 0 tag 1 r requires s }"
                          "rank 2 { send 8b to 3 tag 2 } rank 3 { recv 8b from 2 }", "--S", "0")
        self.assertEqual([line.split(":")[0].split(",")[0] for line in lines if line[0] != " "],
                         ["no send fits"] * 2 + ["no receive fits"] * 2 + ["ring of 4", "found"])

    def test_the_limit(self) -> None:
        text = "num_ranks 2 rank 0 { " + "send 8b to 1 " * 30 + "}"
        self.assertEqual(len(self.said(text, "--limit", "3")), 4)
        self.assertEqual(self.said(text)[-1], "found: 30, of which 10 are not shown (--limit)")

    def test_a_compiled_file_and_a_refusal(self) -> None:
        path = os.path.join(TOP, "examples", "cycle")
        ended = tool_calls.called("check", path)
        self.assertEqual((ended.returncode, ended.stderr), (2, f"check: goal: refused: plan: cycle 0 0 (tools/locate {path} shows where, with this line as its input)\n"))


def drawn(draw: random.Random) -> str:
    """A random schedule of three ranks, where no two messages share a channel. Some receives have a wrong tag."""
    blocks: list[list[str]] = [[] for _ in range(3)]
    for tag in range(draw.randrange(1, 7)):
        source, target = draw.sample(range(3), 2)
        other = tag + 100 if draw.randrange(8) == 0 else tag
        blocks[source].append(f"send 8b to {target} tag {tag}")
        blocks[target].append(f"recv 8b from {source} tag {other}")
    text = "num_ranks 3\n"
    for rank, actions in enumerate(blocks):
        draw.shuffle(actions)
        lines = [f"l{number}: {action}" for number, action in enumerate(actions)]
        lines += [f"l{number} {draw.choice(('requires', 'requires', 'irequires'))} l{draw.randrange(number)}"
                  for number in range(1, len(actions)) if draw.randrange(3)]
        text += f"rank {rank} {{ " + " ".join(lines) + " }\n"
    return text


class Drawn(unittest.TestCase):
    def test_a_fault_is_found_exactly_if_a_run_hangs(self) -> None:
        draw, hung = random.Random(SEED), 0
        for _ in range(150):
            text = drawn(draw)
            schedule = read_canonical(program.call(GOAL, ["show", "/dev/stdin"], text).out.splitlines())
            matching = Matching(schedule)
            found = bool(list(left_over(matching))) or bool(list(rings(schedule.ops, matching.pairs, 0)))
            ended = program.call(GOAL, ["knots", "/dev/stdin", "--S", "0"], text)
            self.assertEqual(found, ended.status == program.STUCK, text)
            hung += found
        self.assertTrue(30 < hung < 120, hung)

    def test_the_matching_is_a_maximum(self) -> None:
        """Compared with all assignments of a few receives to a few messages."""
        draw = random.Random(SEED)
        channels = [(source, tag) for source in "01" for tag in "01"]
        patterns = [(source, tag) for source in ("0", "1", "any") for tag in ("0", "1", "any")]
        for _ in range(200):
            free = {channel: draw.randrange(3) for channel in channels}
            wanted = {pattern: draw.randrange(2) for pattern in patterns}
            left = Flow(dict(free), dict(wanted)).wanted
            self.assertEqual(sum(wanted.values()) - sum(left.values()), most(free, [it for it in wanted for _ in range(wanted[it])]))


def most(free: dict[tuple[str, str], int], patterns: list[tuple[str, str]]) -> int:
    """The greatest number of receives of these patterns that can get a message, by trying all assignments."""
    if not patterns:
        return 0
    best = most(free, patterns[1:])
    for channel, count in free.items():
        if count and patterns[0][0] in ("any", channel[0]) and patterns[0][1] in ("any", channel[1]):
            best = max(best, 1 + most({**free, channel: count - 1}, patterns[1:]))
            if best == len(patterns):
                break
    return best


if __name__ == "__main__":
    unittest.main(verbosity=0)
