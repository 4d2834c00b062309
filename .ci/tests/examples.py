#!/usr/bin/env python3
"""Tests of examples/README.md: it names each file, and `sim`, `waits` and `knots` end with the statuses that it
states."""
import os
import re
import sys
import unittest

TOP = os.path.dirname(os.path.dirname(os.path.dirname(os.path.abspath(__file__))))
sys.path.insert(0, os.path.join(TOP, "tools"))
from common import program

GOAL = program.chosen()
EXAMPLES = os.path.join(TOP, "examples")


class Claims(unittest.TestCase):
    def setUp(self) -> None:
        with open(os.path.join(EXAMPLES, "README.md"), encoding="utf-8") as file:
            self.text = file.read()

    def test_each_file_is_described(self) -> None:
        described = set(re.findall(r"^\| `(\w+)` \||^\*\*An? \w+\*\*, `([\w.]+)`", self.text, re.MULTILINE))
        self.assertEqual({one or other for one, other in described}, set(os.listdir(EXAMPLES)) - {"README.md"})

    def test_each_ends_with_the_stated_status(self) -> None:
        rows = re.findall(r"^\| `(\w+)` \| .* \| (\d) \|$", self.text, re.MULTILINE)
        self.assertEqual(len(rows), 12)
        for name, status in rows:
            for word in ("sim", "waits", "knots"):
                self.assertEqual(program.call(GOAL, [word, os.path.join(EXAMPLES, name)]).status, int(status), (word, name))
            if "--S 100000` ends" in next(line for line in self.text.split("\n") if line.startswith(f"| `{name}`")):
                self.assertEqual(program.call(GOAL, ["sim", os.path.join(EXAMPLES, name), "--S", "100000"]).status, program.DONE)


if __name__ == "__main__":
    unittest.main(verbosity=0)
