#!/usr/bin/env python3
"""Tests of launch/explain.py. It finds a fault in a command line exactly if the program refuses it. It names the word,
the file and the place of a byte. It adds nothing if no person reads standard error."""
from __future__ import annotations

import gzip
import os
import pty
import random
import subprocess
import sys
import tempfile
import unittest
from typing import Any, Sequence

TOP = os.path.dirname(os.path.dirname(os.path.dirname(os.path.abspath(__file__))))
sys.path[:0] = [os.path.join(TOP, "tools"), os.path.join(TOP, "launch")]
import explain
from common import program
from common.limits import KINDS

GOAL = program.chosen()
SEED = 20261201
EXCHANGE = os.path.join(TOP, "examples", "exchange")


def explained(words: Sequence[str], **how: Any) -> tuple[int, str, list[str]]:
    """Runs the program with explanations: its status, standard output, and the lines of standard error."""
    code = "import sys; sys.path.insert(0, sys.argv[1]); import explain; explain.become(sys.argv[2], sys.argv[3:])"
    command = [sys.executable, "-c", code, os.path.join(TOP, "launch"), GOAL, *words]
    how.setdefault("env", {**os.environ, "GOAL_EXPLAIN": "1"})
    done = subprocess.run(command, capture_output=True, check=False, **how)
    return done.returncode, done.stdout.decode(), done.stderr.decode().splitlines()


class Lines(unittest.TestCase):
    def test_the_wrong_word_is_named(self) -> None:
        for words, wanted in (
                ("sim --L 1us x", "word 3: 1us is not a number: 1 to 20 digits, in ns. The form is: goal sim NAME [--L N]"),
                ("sim x --L=1us", "word 3: 1us is not a number: 1 to 20 digits, in ns."),
                ("sim x --G 0.080", "word 4: 0.080 is not a number: 1 to 20 digits, in ns per byte; 0.080 is 0, with 80 for its option of ps"),
                ("gen bcast 8 16M", "word 4: 16M is not a number: 1 to 20 digits, in bytes; 16M is 16777216."),
                ("sim x --Gp 1000", "word 4: 1000 is not from 0 to 999, in ps per byte."),
                ("gen bcast 0 8", "word 3: 0 is not from 1 to 65536, in ranks."),
                ("sin x", "word 1: sin is not a command: is it sim?"), ("frobnicate", "word 1: frobnicate is not a command: it is one of sim waits"),
                ("sim x --s 5", "word 3: --s is not an option of sim: is it --S?"), ("show x --L 5", "word 3: --L is not an option of show, which has none."),
                ("sim x --L 5 --L=6", "word 5: --L is given twice."), ("sim x --L", "word 3: after --L its number is missing."),
                ("nodes x", "MACHINE is missing. The form is: goal nodes NAME MACHINE"), ("sim x y", "word 3: y is one word too many."),
                ("certify x bcast", "word 2: x is not a KIND; give KIND before NAME."), ("gen bcst 8 8", "word 2: bcst is not a KIND: is it bcast?"),
                ("gen scan 8 8 --root 1", "word 5: scan takes no --root: only bcast reduce gather scatter do."),
                ("sim x --L -5", "word 4: -5 is not a number: 1 to 20 digits, in ns.")):
            said = explain.explain(words.split(), 2)
            self.assertEqual(len(said), 1, words)
            self.assertTrue(said[0].startswith(wanted), (words, said[0]))

    def test_a_fault_is_found_exactly_if_the_program_finds_one(self) -> None:
        draw = random.Random(SEED)
        pieces = [*explain.COMMANDS, *KINDS, *explain.RUN_OPTIONS, "--root", "--L=5", "--G=x", "--S=", "--Gp=999", "--Gp=1000", "--l=1", "-",
                  "", "/dev/null", "0", "1", "8", "007", "65536", "65537", "300000", "300001", "99999999999999999999", "123456789012345678901",
                  "1099511627775", "1099511627776", "1048575", "1048576", "-5", "1.5", "--help"]
        forms = [[name, *({"KIND": "bcast", "NAME": "/dev/null", "MACHINE": "/dev/null", "OUT": "/dev/null", "RANKS": "2", "BYTES": "8", "ROUNDS": "1",
                           "SEED": "1"}[word] for word in plain)] for name, (plain, _, _) in explain.COMMANDS.items()]
        counts = [0, 0]
        for number in range(1500):
            words = list(draw.choice(forms))
            for _ in range(draw.randrange(4)):
                at = draw.randrange(len(words) + 1)
                if draw.randrange(3):
                    words.insert(at, draw.choice(pieces))
                elif at < len(words):
                    words[at] = draw.choice(pieces)
            if number % 4 == 0 and words[0] in ("sim", "waits", "knots", "probe"):
                words += ["--L", draw.choice(pieces)]
            if "probe" in words and "300000" in words:
                continue
            is_bad = program.call(GOAL, words).status == 2
            self.assertEqual(explain.line_fault(words) is not None, is_bad, words)
            counts[is_bad] += 1
        self.assertGreater(min(counts), 200)


class Files(unittest.TestCase):
    def setUp(self) -> None:
        folder = tempfile.TemporaryDirectory()
        self.addCleanup(folder.cleanup)
        self.folder = folder.name

    def file(self, content: bytes, name: str = "it") -> str:
        path = os.path.join(self.folder, name)
        with open(path, "wb") as file:
            file.write(content)
        return path

    def added(self, *words: str) -> str:
        """The added line, without the path of the folder."""
        status, out, lines = explained(words)
        self.assertEqual((out, len(lines), status in (3, 4)), ("", 2, True), (words, lines))
        self.assertEqual(lines[0], program.call(GOAL, words).err)
        return lines[1].replace(self.folder + "/", "")

    def test_a_file_that_can_not_be_read(self) -> None:
        path = self.file(b"num_ranks 1")
        self.assertEqual(self.added("sim", path + "x"), "goal: itx is not there")
        self.assertEqual(self.added("sim", path + "/x"), "goal: it/x is below a file, which is not a folder")
        self.assertEqual(self.added("nodes", path, self.folder), f"goal: {self.folder} is a folder")
        self.assertEqual(self.added("sim", ""), "goal: '' is not there")

    def test_a_file_that_is_something_else(self) -> None:
        text = b"num_ranks 1\nrank 0 { calc 5 }\n"
        with open(os.path.join(TOP, "examples", "two_nodes"), "rb") as file:
            machine = file.read()
        for content, wanted in ((b"\xef\xbb\xbf" + text, "it begins with a byte-order mark: save it as UTF-8 without one"),
                                (gzip.compress(text), "it is packed by gzip: unpack it first"), (b"", "it is empty"),
                                (text.decode().encode("utf-16"), "it is UTF-16: save it as UTF-8"),
                                (machine, "it is a MACHINE: give the schedule first, then the MACHINE"),
                                (b"# mine\nclass a L=5\n", "it is a description: `tools/machine it` writes the MACHINE")):
            self.assertEqual(self.added("sim", self.file(content)), f"goal: {wanted}")
        path = self.file(text)
        self.assertEqual(self.added("nodes", path, self.file(b"class a L=5\n", "cluster")), "goal: cluster is a description: `tools/machine cluster` writes the MACHINE")
        self.assertEqual(self.added("nodes", path, path), "goal: it is a schedule: give it before the MACHINE")

    def test_the_place_of_a_byte(self) -> None:
        path = self.file(b"num_ranks 2\nrank 0 {\n  a: calc 100\n  b: send 10b 1\n}\n")
        self.assertEqual(self.added("sim", path), "goal: it:4:15: here is 1")
        self.assertEqual(self.added("sim", self.file(b"num_ranks 2 rank 0 {")), "goal: it:1:21: here is the end")
        self.assertEqual(self.added("nodes", EXCHANGE, self.file(b"classes 1\nclass 1 2 x")), "goal: it:2:11: here is x")
        self.assertEqual(self.added("sim", self.file(b"num_ranks 1\nrank 0 { a: calc 1 b: calc 2 a requires b b requires a }")), "goal: it:2:10: 0 0 is a: calc 1")

    def test_refusals_without_a_place(self) -> None:
        self.assertEqual(self.added("gen", "allreduce", "6", "8"), "goal: an allreduce has 1, 2, 4, 8 .. ranks; tools/schedule writes allreduces of any number")
        self.assertEqual(self.added("gen", "alltoall", "600", "8"), "goal: it is made for at most 512 ranks")
        machine = os.path.join(TOP, "examples", "two_nodes")
        self.assertEqual(self.added("nodes", EXCHANGE, machine), f"goal: {explain.shown(machine)} has nodes for 16 ranks, and the schedule has another number of ranks")

    def test_a_pipe_cannot_be_read_again(self) -> None:
        status, _, lines = explained(["sim", "/dev/stdin"], input=b"num_ranks")
        self.assertEqual((status, lines), (3, ["goal: refused: text: syntax at 9", "goal: /dev/stdin came through a pipe and cannot be read again: "
                                               "save it in a file to see where the fault is"]))

    def test_standard_input_that_is_a_file(self) -> None:
        with open(self.file(b"num_ranks 1\n rank"), "rb") as file:
            status, _, lines = explained(["sim", "/dev/stdin"], stdin=file)
        self.assertEqual((status, lines), (3, ["goal: refused: text: syntax at 17", "goal: /dev/stdin:2:6: here is the end"]))
        status, _, lines = explained(["sim", "/dev/stdin"], preexec_fn=lambda: os.close(0))
        self.assertEqual((status, lines), (4, ["goal: reading failed", "goal: standard input is closed"]))

    def test_the_copy_of_a_device(self) -> None:
        copy = self.file(b"num_ranks 1 rank x")
        told = explain.explain(["sim", "--L", "5", "/dev/stdin"], 3, "goal: refused: text: syntax at 17", {3: copy})
        self.assertEqual(told, ["/dev/stdin:1:18: here is x"])


class Help(unittest.TestCase):
    def test_the_help_lists_the_commands(self) -> None:
        for words in ((), ["--help"]):
            status, out, lines = explained(words)
            self.assertEqual((status, out, lines[0], len(lines)), (2, "", "goal: the words are not a command line of goal", 11))
            for name, line in zip(explain.COMMANDS, lines[2:]):
                self.assertTrue(line.startswith(f"  goal {name} "), line)
            self.assertLess(max(map(len, lines)), 100)

    def test_the_version(self) -> None:
        status, _, lines = explained(["--version"])
        self.assertEqual((status, len(lines)), (2, 2))
        self.assertIn("the sources are", lines[1])

    def test_the_documents_have_the_usage_lines(self) -> None:
        with open(os.path.join(TOP, "docs", "COMMANDS.md"), encoding="utf-8") as file:
            text = file.read()
        self.assertIn(explain.form_of("sim"), text)
        for name in ("nodes", "compile", "show", "gen", "certify"):
            self.assertIn("    " + explain.form_of(name) + "\n", text)


class Quiet(unittest.TestCase):
    def test_nothing_is_added_unless_a_person_reads(self) -> None:
        env = {key: value for key, value in os.environ.items() if key != "GOAL_EXPLAIN"}
        for words in ((), ["--help"], ["sim"], ["sim", "/no/such/file"], ["sim", "/dev/null"], ["knots", EXCHANGE],
                      ["knots", os.path.join(TOP, "examples", "both_send_first")]):
            answer = program.call(GOAL, words)
            self.assertEqual(explained(words, env=env), (answer.status, answer.out, answer.err.splitlines()), words)

    def test_nothing_is_added_after_success(self) -> None:
        for words in (["knots", EXCHANGE], ["knots", os.path.join(TOP, "examples", "both_send_first")]):
            answer = program.call(GOAL, words)
            self.assertEqual(explained(words), (answer.status, answer.out, []), words)

    def test_on_a_terminal(self) -> None:
        ours, its = pty.openpty()
        code = "import sys; sys.path.insert(0, sys.argv[1]); import explain; explain.become(sys.argv[2], sys.argv[3:])"
        env = {key: value for key, value in os.environ.items() if key != "GOAL_EXPLAIN"}
        done = subprocess.run([sys.executable, "-c", code, os.path.join(TOP, "launch"), GOAL, "sim", "/no/such/file"], stdout=subprocess.DEVNULL,
                              stderr=its, env=env, check=False)
        os.close(its)
        told = os.read(ours, 4096).decode().splitlines()
        os.close(ours)
        self.assertEqual((done.returncode, told), (4, ["goal: reading failed", "goal: /no/such/file is not there"]))

    def test_the_call_by_the_launcher(self) -> None:
        done = subprocess.run([sys.executable, os.path.join(TOP, "launch", "explain.py"), GOAL, "4", "sim", "/no/such/file"], capture_output=True, text=True, check=False)
        self.assertEqual((done.returncode, done.stdout, done.stderr), (0, "", "goal: /no/such/file is not there\n"))


if __name__ == "__main__":
    unittest.main(verbosity=0)
