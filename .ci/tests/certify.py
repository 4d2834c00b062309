#!/usr/bin/env python3
"""Tests of tools/certify: its verdicts are those of `goal certify`, and its statements about slots are true."""
import os
import random
import re
import sys
import tempfile
import unittest
from typing import Iterator, Optional, Tuple

TOP = os.path.dirname(os.path.dirname(os.path.dirname(os.path.abspath(__file__))))
sys.path[:0] = [os.path.join(TOP, "tools"), os.path.join(TOP, ".ci")]
import tool_calls
from common import program
from common.canonical import Schedule, read_canonical
from common.flow import Flow, wanted_of
from common.limits import KINDS
from segmented import wanted_at, width_of

GOAL = program.chosen()
SEED = 20261203
STAR = """num_ranks 3
rank 0 {
  a: recv 8b from 1      a moves 1 to 1
  b: recv 8b from 2      b moves 2 to 2
  c: calc 2              c adds 1 to 0    c requires a
  d: calc 2              d adds 2 to 0    d requires b  d requires c
  s: send 8b to 1        s moves 0 to 0   s requires d
  t: send 8b to 2        t moves 0 to 0   t requires d
}
rank 1 { s: send 8b to 0  s moves 0 to 0  r: recv 8b from 0  r moves 0 to 0  r requires s }
rank 2 { s: send 8b to 0  s moves 0 to 0  r: recv 8b from 0  r moves 0 to 0  r requires s }
"""


def made(*words: str) -> str:
    """A schedule that tools/schedule makes."""
    return program.expect(program.call(os.path.join(TOP, "tools", "schedule"), words), program.DONE).out


def shown(text: str) -> Schedule:
    return read_canonical(program.expect(program.call(GOAL, ["show", "/dev/stdin"], text), program.DONE).out.splitlines())


def first_wrong(schedule: Schedule, kind: str, block: int = 0) -> Optional[str]:
    """The first slot with wrong contents, in the form of a verdict of `goal certify`, or None."""
    flow = Flow(schedule, kind, 0, [block])
    for rank in range(schedule.ranks):
        for slot in wanted_at(kind, schedule.ranks, 0, rank):
            place = rank, block * width_of(kind, schedule.ranks) + slot
            held, wanted = flow.holds(flow.last.get(place)), wanted_of(kind, schedule.ranks, 0, place, block)
            if sorted(held) != wanted or (kind != "barrier" and any(count > 1 for count in held.values())):
                return f"not certified: wrong {rank} slot {place[1]}"
    return None


class Slots(unittest.TestCase):
    def test_slots_of_certified_schedules_have_the_wanted_contents(self) -> None:
        for kind in KINDS:
            self.assertIsNone(first_wrong(shown(program.call(GOAL, ["gen", kind, "8", "8"]).out), kind), kind)
        for block in range(4):
            self.assertIsNone(first_wrong(shown(made("allreduce-ring", "4", "64")), "allreduce", block))
        self.assertIsNone(first_wrong(shown(made("alltoall-bruck", "6", "64")), "alltoall"))

    def test_the_verdict_names_the_wrong_slot(self) -> None:
        """For schedules with a damaged note that causes no race and no wrong length."""
        draw, wrong = random.Random(SEED), 0
        for text, kind in self.spoilt(draw):
            verdict = program.call(GOAL, ["certify", kind, "/dev/stdin"], text).out.strip()
            if verdict.startswith(("not certified: wrong", "certified")):
                self.assertEqual(first_wrong(shown(text), kind), verdict if "wrong" in verdict else None, text)
                wrong += "wrong" in verdict
        self.assertGreater(wrong, 10)

    def spoilt(self, draw: random.Random) -> Iterator[Tuple[str, str]]:
        """Schedules with one changed slot in one note."""
        for _ in range(60):
            kind = draw.choice(KINDS)
            text = program.call(GOAL, ["gen", kind, "4", "8"]).out
            notes = list(re.finditer(r"^l\d+ (?:moves|adds) (\d+) to (\d+)$", text, re.MULTILINE))
            note, slot = draw.choice(notes), str(draw.randrange(4))
            whole = note[0].replace(f"{note[1]} to {note[2]}", f"{slot} to {slot}") if "moves" in note[0] else re.sub(r"(\d+) to", f"{slot} to", note[0])
            yield text[:note.start()] + whole + text[note.end():], kind


class Explained(unittest.TestCase):
    def explained(self, kind: str, text: str, *words: str) -> str:
        """The output of the tool. Checks that its first line is that of `goal certify`."""
        with tempfile.TemporaryDirectory() as folder:
            with open(os.path.join(folder, "it"), "w", encoding="utf-8") as file:
                file.write(text)
            done = tool_calls.called("certify", kind, "it", *words, cwd=folder)
        self.assertEqual(done.stderr, "")
        if "--segments" not in words:
            answer = program.call(GOAL, ["certify", kind, "/dev/stdin", *words], text)
            self.assertEqual((done.returncode, done.stdout.splitlines()[0] + "\n"), (answer.status, answer.out))
        return done.stdout

    def test_certified(self) -> None:
        self.assertEqual(self.explained("allreduce", STAR), "certified allreduce ranks 3\n")

    def test_a_race(self) -> None:
        told = self.explained("allreduce", STAR.replace("d requires c", ""))
        self.assertIn("it:5:3: 0 2 is c: calc 2, which adds to slot 0", told)
        self.assertIn("with `d requires c`: certified allreduce ranks 3", told)

    def test_a_contribution_that_is_added_twice(self) -> None:
        told = self.explained("allreduce", STAR.replace("adds 2 to 0", "adds 1 to 0"))
        for line in ("missing: item 0 of rank 2", "there 2 times: item 0 of rank 1", "item 0 of rank 2 ends in slot 2 of rank 0",
                     "it:6:26: d adds 1 to 0 (calc 2 of rank 0), where both slots hold it"):
            self.assertIn(line, told)

    def test_pairs(self) -> None:
        told = self.explained("allreduce", STAR.replace("recv 8b from 2 ", "recv 8b from 2 tag 7 "))
        self.assertIn("nearest, with another tag, ", told)
        self.assertIn(", of 2 slots", self.explained("allreduce", STAR.replace("a moves 1 to 1", "a moves 1 to 2")))
        self.assertIn("name the rank and the tag", self.explained("allreduce", STAR.replace("recv 8b from 2 ", "recv 8b from any ")))
        self.assertIn("another tag", self.explained("allreduce", STAR.replace("t: send 8b to 2", "t: send 8b to 1")))

    def test_a_stall(self) -> None:
        text = "num_ranks 2 rank 0 { s: send 8b to 1 s moves 0 to 0 r: recv 8b from 1 r moves 1 to 1 r requires s } " \
               "rank 1 { s: send 8b to 0 s moves 0 to 0 r: recv 8b from 0 r moves 1 to 1 r requires s }"
        told = self.explained("barrier", text)
        self.assertIn("waits for its partner", told)
        self.assertIn("the cycle begins again at", told)

    def test_segments(self) -> None:
        told = self.explained("allreduce", made("allreduce-ring", "4", "4096").replace("l15 moves 3 to 3", "l15 moves 9 to 9"), "--segments")
        self.assertIn("segment 3: not certified: wrong 1 slot 3\n", told)
        self.assertIn("missing: item 3 of rank 2", told)
        self.assertIn("slot 9 of rank 1", told)

    def test_a_slot_of_two_segments(self) -> None:
        """A slot of segment 0 also gets data of segment 1."""
        text = made("allreduce-ring", "2", "64", "--segments", "1")
        last = max(int(label) for label in re.findall(r"^l(\d+):", text.split("rank 1")[0], re.MULTILINE))
        needs = "".join(f"l{last + 1} requires l{label}\n" for label in range(1, last + 1))
        mixing = f"l{last + 1}: calc 0 cpu 0\n{needs}l{last + 1} adds 1 to 0\n"
        told = self.explained("allreduce", text.replace("}\n", mixing + "}\n", 1), "--segments")
        self.assertIn("mixed 0 slot 0", told)
        self.assertIn("not wanted: item 1 of rank 0", told)
        self.assertIn(f"l{last + 1} adds 1 to 0", told)


if __name__ == "__main__":
    unittest.main(verbosity=0)
