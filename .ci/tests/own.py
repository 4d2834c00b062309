#!/usr/bin/env python3
"""Tests of algorithms of users: the example is certified and can be swept, plans do what their module describes, and
mistakes in a user's file are reported with their lines."""
import os
import re
import subprocess
import sys
import tempfile
import unittest
from typing import Callable, List, Tuple

TOP = os.path.dirname(os.path.dirname(os.path.dirname(os.path.abspath(__file__))))
sys.path[:0] = [os.path.join(TOP, "tools"), os.path.join(TOP, ".ci")]
import tool_calls
import segmented
from algorithms.own import own_algorithm
from algorithms.collectives import Wish
from algorithms.plan import Message, Plan, cut
from common import command, program

GOAL = program.chosen()
EXAMPLE = os.path.join(TOP, "examples", "own_algorithm.py")
HEAD = "from algorithms.plan import Message, Plan, cut\n"


def ended(tool: str, *words: str) -> "subprocess.CompletedProcess[str]":
    return tool_calls.called(tool, *words)


class Example(unittest.TestCase):
    def test_the_example_is_certified_in_each_segment(self) -> None:
        make, options = own_algorithm(EXAMPLE + ":direct")
        self.assertEqual(options, ("sum_ps",))
        for ranks in (*range(1, 10), 17):
            for size in (0, 5, 4096):
                text = "".join(make(Wish(ranks, size, sum_ps=250)).text())
                checks = segmented.Segments(GOAL, "allreduce", text)
                self.assertEqual((checks.fault, checks.count()), (None, ranks), (ranks, size))
                self.assertEqual([fault for _, fault in checks.verdicts(ranks) if fault], [], (ranks, size))
                for eager in ("0", "65535"):
                    self.assertRegex(program.call(GOAL, ["sim", "/dev/stdin", "--S", eager], text).out, "stuck 0 unread 0")

    def test_schedule_and_sweep_accept_the_example(self) -> None:
        word = EXAMPLE + ":direct"
        said = ended("schedule", word, "4", "4096", "--sum-ps", "1000")
        self.assertEqual((said.returncode, said.stderr), (0, ""))
        self.assertEqual(program.call(GOAL, ["certify", "allreduce", "/dev/stdin"], said.stdout).out, "certified allreduce ranks 4\n")
        finish = program.call(GOAL, ["sim", "/dev/stdin"], said.stdout).out.split()[9]
        swept = ended("sweep", f"algorithm={word},allreduce-ring", "ranks=4", "size=4096", "sum-ps=1000", "segments=1,2")
        rows = [line.split(",") for line in swept.stdout.splitlines()]
        self.assertEqual((swept.returncode, len(rows)), (0, 4))
        self.assertEqual((rows[1][rows[0].index("finish")], rows[1][rows[0].index("segments")]), (finish, ""))

    def test_the_example_is_short(self) -> None:
        with open(EXAMPLE, encoding="utf-8") as file:
            self.assertLessEqual(len(file.read().splitlines()), 15)


class Plans(unittest.TestCase):
    def lines(self, plan: Plan) -> List[str]:
        text = "".join(plan.text())
        self.assertEqual(program.call(GOAL, ["show", "/dev/stdin"], text).out, text)
        return text.splitlines()

    def test_cpus_and_nics(self) -> None:
        plan = Plan(2, [8, 9])
        plan.exchange([Message(0, 1, [0], cpu=3, nic=4), Message(0, 1, [1], nic=255)])
        plan.combine([Message(1, 0, [1], cpu=7)])
        lines = self.lines(plan)
        for line in ("l1: send 8b to 1 tag 0 cpu 3 nic 4", "l2: send 9b to 1 tag 1 cpu 0 nic 255", "l1: recv 8b from 0 tag 0 cpu 3 nic 4",
                     "l3: recv 9b from 1 tag 0 cpu 7 nic 0", "l4: calc 0 cpu 7"):
            self.assertIn(line, lines)

    def test_a_calc_is_ordered_by_its_slots(self) -> None:
        plan = Plan(2, [8, 8])
        plan.exchange([Message(0, 1, [0]), Message(0, 1, [1])])
        plan.calc(1, 500, [0])
        plan.exchange([Message(1, 0, [0], [1]), Message(1, 0, [1], [0])])
        lines = self.lines(plan)
        self.assertIn("l3: calc 500 cpu 0", lines)
        self.assertEqual([line for line in lines if "requires" in line][-3:], ["l3 requires l1", "l4 requires l3", "l5 requires l2"])

    def test_sums_go_to_the_slots_of_into(self) -> None:
        plan = Plan(2, [8, 8])
        plan.combine([Message(0, 1, [0], [1])])
        self.assertEqual(self.lines(plan)[-3:], ["l1 moves 2 to 2", "l2 adds 2 to 1", "}"])

    def test_the_end_of_a_step_orders_operations(self) -> None:
        plan = Plan(2, [8, 8])
        plan.exchange([Message(0, 1, [0])])
        plan.end_step()
        plan.exchange([Message(0, 1, [1])])
        self.assertIn("l2 requires l1", self.lines(plan))

    def test_impossible_plans_are_faults(self) -> None:
        plan = Plan(2, [8])
        cases: List[Tuple[Callable[[], object], str]] = [
                (lambda: plan.exchange([Message(0, 2, [0])]), "a rank is 2: give 0 to 1"),
                (lambda: plan.exchange([Message(-1, 1, [0])]), "a rank is -1: give 0 to 1"),
                (lambda: plan.exchange([Message(0, 1, [0.5])]), "a slot is 0.5: give a whole number"),  # type: ignore[list-item]
                (lambda: plan.exchange([Message(0, 1, [0], [0, 1])]), "a message of 1 slots into 2"),
                (lambda: plan.exchange([Message(0, 1, [3])]), "slot 3 has no size, as the plan has 1 sizes"),
                (lambda: plan.exchange([Message(0, 1, [0], nic=256)]), "the nic of a message is 256: give 0 to 255"),
                (lambda: plan.exchange([Message(0, 1, [0], size=-1)]), "the size of a message is -1"),
                (lambda: plan.add(2, [(0, 0)]), "a rank is 2"), (lambda: plan.add(0, [(0, -1)]), "a slot is -1"),
                (lambda: plan.calc(0, -1), "the cost of a calc is -1"), (lambda: plan.spare(2, 1), "a rank is 2"),
                (lambda: Plan(0, [8]), "the number of ranks is 0: give 1 to 65536"), (lambda: Plan(2, [-8]), "the size of a slot is -8")]
        for call, why in cases:
            with self.assertRaises(command.Fault) as told:
                call()
            self.assertTrue(str(told.exception).startswith(why), str(told.exception))

    def test_the_document_describes_all_of_it(self) -> None:
        with open(os.path.join(TOP, "docs", "COLLECTIVES.md"), encoding="utf-8") as file:
            text = file.read()
        for name in [name for name in vars(Plan) if not name.startswith("_")]:
            self.assertTrue(re.search(rf"`(plan\.)?{name}\(", text), name)
        for name in Message.__dataclass_fields__:
            self.assertTrue(f"`{name}`" in text, name)

    def test_pieces(self) -> None:
        self.assertEqual(cut(10, 4), [2, 3, 2, 3])


class Mistakes(unittest.TestCase):
    def check(self, source: str, why: str, *words: str) -> None:
        with tempfile.TemporaryDirectory() as folder:
            path = os.path.join(folder, "mine.py")
            with open(path, "w", encoding="utf-8") as file:
                file.write(source)
            for tool, more in (("schedule", [path + ":mine", "4", "64", *words]), ("sweep", [f"algorithm={path}:mine", "ranks=4", "size=64"])):
                if words and tool == "sweep":
                    continue
                done = ended(tool, *more)
                # (a sweep also prints the parameters that are not given)
                told = [line for line in done.stderr.splitlines() if not line.startswith("sweep: not given: ")]
                self.assertEqual((done.returncode, len(told)), (2, 1), done.stderr)
                self.assertRegex(told[0], f"^{tool}: (1 of 1 runs failed, .*: schedule: )?{re.escape(path)}{why}")
            self.assertEqual(os.listdir(folder), ["mine.py"])

    def test_mistakes_are_reported_with_their_lines(self) -> None:
        body = HEAD + "def mine(ranks, size):\n    plan = Plan(ranks, [size])\n"
        self.check(body + "    plan.exchange([Message(0, ranks, [0])])\n    return plan\n", ":4: a rank is 4: give 0 to 3")
        self.check(body + "    plan.exchange(\n        [Message(0, rank, [0])])\n    return plan\n", ":5: NameError: name 'rank' is not defined")
        self.check(body + "    return plan\n  return\n", ":5: unindent does not match any outer indentation level")
        self.check(body + "    return [plan]\n", ": mine returns list: it has to return the Plan")
        self.check(body + "    return plan.exchange(5)\n", ":4: TypeError: 'int' object is not iterable")
        self.check(body + "    raise SystemExit(3)\n", ":4: SystemExit: 3")
        self.check(body + "    return mine(ranks, size)\n", ":4: RecursionError: |:3: RecursionError: ")
        self.check("import no_such_module\n" + body, ":1: ModuleNotFoundError: No module named 'no_such_module'")
        self.check(HEAD + "def other(ranks, size): pass\n", " has no function mine")
        self.check(HEAD + "mine = 5\n", " has no function mine")
        self.check(HEAD + "\ndef mine(count, size): pass\n", ":3: mine has to begin with the parameters `ranks` and `size`")
        self.check(HEAD + "def mine(ranks, size, depth=3): pass\n", ":2: mine takes 'depth': after ranks and size an algorithm can take root")

    def test_an_option_that_it_does_not_take(self) -> None:
        done = ended("schedule", EXAMPLE + ":direct", "4", "64", "--root", "1")
        self.assertEqual((done.returncode, done.stderr), (2, f"schedule: {EXAMPLE}:direct takes no --root: leave it out (--list has the options of each)\n"))

    def test_a_file_that_is_not_there(self) -> None:
        for tool, words in (("schedule", ["/no/file.py:mine", "4", "64"]), ("sweep", ["algorithm=/no/file.py:mine", "ranks=4", "size=64"])):
            done = ended(tool, *words)
            self.assertEqual((done.returncode, done.stderr), (2, f"{tool}: /no/file.py: No such file or directory\n"))

    def test_printed_text_is_not_in_the_schedule(self) -> None:
        with tempfile.TemporaryDirectory() as folder:
            path = os.path.join(folder, "mine.py")
            with open(os.path.join(folder, "beside.py"), "w", encoding="utf-8") as file:
                file.write("PIECES = 2\n")
            with open(path, "w", encoding="utf-8") as file:
                file.write(HEAD + "import beside\ndef mine(ranks, size, segments=1):\n    print('so', segments)\n    return Plan(ranks, cut(size, beside.PIECES))\n")
            done = ended("schedule", path + ":mine", "4", "64", "--segments", "7")
            self.assertEqual((done.returncode, done.stdout, done.stderr), (0, "num_ranks 4\n", "so 7\n"))


if __name__ == "__main__":
    unittest.main(verbosity=0)
