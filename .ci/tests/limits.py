#!/usr/bin/env python3
"""Tests that each tool checks its limits before it runs or certifies a schedule. They use a fake `goal` that can only
show and compile."""
from __future__ import annotations

import os
import subprocess
import sys
import tempfile
import unittest

TOP = os.path.dirname(os.path.dirname(os.path.dirname(os.path.abspath(__file__))))
sys.path[:0] = [os.path.join(TOP, "tools"), os.path.join(TOP, ".ci")]
import tool_calls
from common import program

EXAMPLES = os.path.join(TOP, "examples")
GOAL = os.path.abspath(program.chosen())
CARDS = "class a L=5\nnodes 2 of 4\ninside a\nbetween a\ncards 1\n"
TABLE = "L,g,finish,stuck,protocol\n" + "".join(f"5,{gap},9,0,eager\n" for gap in range(101))
SIXTEEN = "the machine has 16 ranks, and the schedule has 8"
# A tool, its arguments, and the beginning of its message. ALL is an alltoall of 8 ranks with 15 operations each. CARDS is
# a machine for it.
KEPT = (
    ("certify", "bcast ALL --root 65536", "argument --root: '65536' is not the number of a rank from 0 to 65535"),
    ("check", "ALL --limit 0", "argument --limit: '0' is not a number of findings from 1 to 1048576"),
    ("fold", "ALL TWO_NODES --run", SIXTEEN),
    ("fold", "ALL CARDS --cards 257 --run", "'257' is not a number of cards from 0 to 256"),
    ("fold", "ALL CARDS --run -o /no/such/file", "/no/such/file: No such file or directory"),
    ("locate", "ALL 99999999", "ALL has only "),
    ("machine", "MANY", "MANY:1: more than 65536 ranks"),
    ("path", "ALL --machine TWO_NODES", SIXTEEN),
    ("path", "ALL --to 8 0", "rank 8 has no operation 0"),
    ("path", "ALL --to 7 15 --machine CARDS", "rank 7 has no operation 15"),
    ("plot", "TABLE --x L", "101 curves: a picture has at most "),
    ("schedule", "allreduce-ring 2048 8", "more than 1048576 operations: take fewer ranks or segments"),
    ("segments", "alltoall ALL 4097", "4097 segments of 16 slots: `goal certify` takes 65536 slots at most"),
    ("segments", "bcast ALL --root 8", "--root 8 is not a rank of this schedule: it has 8 ranks"),
    ("sweep", "schedule=ALL L=1..101+1 g=1,2 --x g --plot x", "101 curves: a picture has at most "),
    ("sweep", "schedule=ALL L=1..1000+1 g=1..101+1", "more than 100000 points"),
    ("sweep", "algorithm=bcast ranks=8,70000 size=8", "ranks: 70000 is not a number of ranks from 1 to 65536"),
    ("timeline", "ALL --limit 100", "120 operations, and the limit is 100: "),
    ("timeline", "ALL --limit 20 --ranks 0-1", "30 operations, and the limit is 20: "),
    ("timeline", "ALL --limit 100 --machine CARDS", "120 operations, and the limit is 100: "),
    ("timeline", "ALL --ranks 5-9 --from 7", "--ranks 5-9: the schedule has the ranks 0 to 7"),
    ("timeline", "ALL --machine TWO_NODES", SIXTEEN),
    ("timeline", "ALL --width 20001", "argument --width: '20001' is not a number of pixels from 400 to 20000"),
    ("trace", "ALL --limit 100", "120 operations, and the limit is 100: "),
    ("trace", "ALL --limit 100 --path --machine CARDS", "120 operations, and the limit is 100: "),
    ("waits", "ALL --machine TWO_NODES", SIXTEEN),
)


class Limits(unittest.TestCase):
    def test_each_limit_is_checked_before_a_run(self) -> None:
        tools = os.path.join(TOP, "tools")
        named = {name for name in os.listdir(tools) if os.path.isfile(os.path.join(tools, name)) and not name.endswith(".py")}
        self.assertEqual({tool for tool, _, _ in KEPT}, named)
        with tempfile.TemporaryDirectory() as folder:
            files = {"TWO_NODES": os.path.join(EXAMPLES, "two_nodes"), **{name: os.path.join(folder, name) for name in ("ALL", "CARDS", "MANY", "TABLE", "goal")}}
            made = subprocess.run([GOAL, "gen", "alltoall", "8", "8"], stdout=subprocess.PIPE, check=True, text=True).stdout
            program = f"#!/bin/sh\ncase $1 in show|compile) exec '{GOAL}' \"$@\" ;; esac\necho \"goal: asked to $1\" >&2\nexit 9\n"
            for name, text in (("ALL", made), ("CARDS", CARDS), ("MANY", "nodes 2 of 40000\n"), ("TABLE", TABLE), ("goal", program)):
                with open(files[name], "w", encoding="utf-8") as file:
                    file.write(text)
            os.chmod(files["goal"], 0o755)
            for tool, words, why in KEPT:
                given = [files.get(word, word).replace("=ALL", f"={files['ALL']}") for word in words.split()]
                done = tool_calls.called(tool, *given, env={**os.environ, "GOAL": files["goal"]})
                with self.subTest(f"{tool} {words}"):
                    self.assertEqual((done.returncode, done.stdout, done.stderr.count("\n")), (2, "", 1), done.stderr)
                    self.assertTrue(done.stderr.replace(folder + "/", "").startswith(f"{tool}: {why}"), done.stderr)


if __name__ == "__main__":
    unittest.main(verbosity=0)
