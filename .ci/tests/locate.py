#!/usr/bin/env python3
"""Tests of tools/locate: it shows bytes that refusals name, words of machines, and operations as they are written."""
from __future__ import annotations

import os
import re
import subprocess
import sys
import tempfile
import unittest

TOP = os.path.dirname(os.path.dirname(os.path.dirname(os.path.abspath(__file__))))
sys.path[:0] = [os.path.join(TOP, "tools"), os.path.join(TOP, ".ci")]
import tool_calls
from common import program
from common.places import line_and_column, operations

GOAL = program.chosen()
TEXT = b"""/* rank 7 { calc 1 */ num_ranks 3
rank 2 {
\ta: calc 5 cpu 1 // a send 1b to 0
\ta requires b  b : send /* so large */ 8b to 0 tag
 4 nic 1 b moves 0 to 3
}
rank 0{recv 8b from 2 tag 4 calc 7}// \xc3\xa4
rank 1 { }"""


def located(*words: str, text: bytes | None = None) -> subprocess.CompletedProcess[bytes]:
    return tool_calls.called_with_bytes("locate", *words, given=text)


class Operations(unittest.TestCase):
    def test_operations_are_found_as_written(self) -> None:
        said = [(one.rank, one.number, str(one), line_and_column(TEXT, one.byte)[:2]) for one in operations(TEXT)]
        self.assertEqual(said, [(2, 0, "a: calc 5 cpu 1", (3, 2)), (2, 1, "b: send 8b to 0 tag 4 nic 1", (4, 16)),
                                (0, 0, "recv 8b from 2 tag 4", (7, 8)), (0, 1, "calc 7", (7, 29))])

    def test_operations_are_those_that_the_program_reads(self) -> None:
        """In each example, both find the same number of operations, with the same ranks, kinds and sizes."""
        folder = os.path.join(TOP, "examples")
        for name in sorted(os.listdir(folder)):
            shown = program.call(GOAL, ["show", os.path.join(folder, name)])
            if shown.status == program.DONE:
                with open(os.path.join(folder, name), "rb") as file:
                    ours = [(one.rank, str(one).split(": ")[-1]) for one in operations(file.read())]
                theirs = [(one.rank, str(one).split(": ")[-1]) for one in operations(shown.out.encode())]
                self.assertEqual(len(ours), len(re.findall(r"^l\d+: ", shown.out, re.MULTILINE)), name)
                self.assertTrue(all(there[1].startswith(here[1].split(" tag")[0].split(" cpu")[0]) and here[0] == there[0]
                                    for here, there in zip(ours, theirs)), name)


class Words(unittest.TestCase):
    def test_a_byte_is_shown(self) -> None:
        text = b"num_ranks 2\nrank 0 {\n\tsend 8b too 1\n}\n"
        said = program.call(GOAL, ["sim", "/dev/stdin"], text.decode()).err
        self.assertEqual(said, "goal: refused: text: syntax at 30")
        self.assertEqual(located("-", "30", text=text).stdout.decode(), "-:3:10\n\tsend 8b too 1\n\t        ^\n")

    def test_the_end_is_a_place(self) -> None:
        self.assertEqual(located("-", "2", text=b"a\n").stdout, b"-:2:1\n\n^\n")
        self.assertEqual(located("-", "0", text=b"").stdout, b"-:1:1\n\n^\n")

    def test_columns_are_characters_and_long_lines_are_cut(self) -> None:
        self.assertEqual(located("-", "3", text=b"\xc3\xa4 b").stdout.decode(), "-:1:3\nä b\n  ^\n")
        said = located("-", "200", text=b"x" * 400).stdout.decode().split("\n")
        self.assertEqual((said[0], said[1], said[2]), ("-:1:201", "x" * 120, " " * 60 + "^"))

    def test_operations_are_shown_in_the_order_asked(self) -> None:
        said = located("-", "0", "1", "2", "0", text=TEXT).stdout.decode()
        self.assertEqual(said, "-:7:29: 0 1 is calc 7\n-:3:2: 2 0 is a: calc 5 cpu 1\n")

    def test_a_word_of_a_machine(self) -> None:
        machine = "classes 1\nclass 1 2 3 4 5 6 7\ninside 0 default 0"
        said = program.call(GOAL, ["nodes", os.path.join(TOP, "examples", "one_calc"), "/dev/stdin"], machine).err
        self.assertEqual(said, "goal: refused: machine: syntax at 10")
        self.assertEqual(located("--word", "-", "10", text=machine.encode()).stdout.decode(),
                         "-:3:1\ninside 0 default 0\n^\n")

    def test_lines_are_read_as_they_are_printed(self) -> None:
        """For each form of line: the operations that are shown below it."""
        text = b"num_ranks 2\nrank 0 { a: send 8b to 1  b: calc 5 b requires a a moves 0 to 0 }\nrank 1 { recv 8b from 0 }\n"
        a, b, c = "0 0 is a: send 8b to 1", "0 1 is b: calc 5", "1 0 is recv 8b from 0"
        with tempfile.NamedTemporaryFile() as file:
            file.write(text)
            file.flush()
            for line, wanted in (
                    ("ring 0 0 1 0 0 1 behind 3", [a, c, b]), ("alone 1 0 behind 2", [c]), ("stuck 0 1 for op 0 0", [b, a]),
                    ("stuck 0 0 for partner 1 0", [a, c]), ("stuck 1 0 alone", [c]), ("op 0 0 send start 0 end 100 match 1 0", [a, c]),
                    ("op 0 1 calc start - end -", [b]), ("op 1 0 recv start 0 end - match -", [c]), ("wait 1 0 4154", [c]),
                    ("oversize 1 0 room 4 message 10", [c]), ("not certified: race 0 0 and 0 1 slot 0", [a, b]),
                    ("not certified: wildcard 1 0", [c]), ("not certified: double channel 0 0 and 1 0", [a, c]),
                    ("not certified: stalls 0 1", [b]), ("segment 3: not certified: wrong 1 slot 3", ["block is rank 1"]),
                    ("not certified: in no segment is slot 9, which operation 1 of rank 0 moves", [b]), ("too large 1", ["block is rank 1"]),
                    ("goal: refused: plan: cycle 0 1", [b]), ("goal: refused: plan: dependency 0 0", ["dependency 0 0 is b requires a"]),
                    ("goal: refused: plan: note 0 0", ["note 0 0 is a moves 0 to 0"]), ("ranks 2 ops 3 stuck 0 unread 0 finish 5", []),
                    ("certified bcast ranks 2", [])):
                said = located(file.name, text=line.encode() + b"\n").stdout.decode().splitlines()
                self.assertEqual((said[0], [one.split(": ", 1)[1] for one in said[1:]]), (line, wanted))
            said = located(file.name, text=b"goal: refused: text: syntax at 13\n").stdout.decode().splitlines()
            self.assertEqual(said[1:3], [f"  {file.name}:2:2", "  rank 0 { a: send 8b to 1  b: calc 5 b requires a a moves 0 to"])
            ended = located(file.name, text=b"alone 7 0 behind 1\n")
            self.assertEqual((ended.returncode, ended.stderr.decode()), (2, f"locate: {file.name}: rank 7 has no operation 0\n"))

    def test_all_output_of_goal_is_accepted(self) -> None:
        folder = os.path.join(TOP, "examples")
        for name in ("both_send_first", "alltoall_send_first", "exchange", "waits", "cycle"):
            path = os.path.join(folder, name)
            for words in (["sim", path], ["waits", path], ["knots", path], ["certify", "bcast", path]):
                answer = program.call(GOAL, words)
                ended = located(path, text=(answer.out + answer.err + "\n").encode())
                self.assertEqual((ended.returncode, ended.stderr), (0, b""), words)

    def test_faults_are_one_line(self) -> None:
        for words, text, why in ((["-", "9"], b"abc", "- has only 3 bytes"), (["-", "0", "1"], b"num_ranks 1", "-: rank 0 has no operation 1"),
                                 (["-", "0", "1", "2"], b"", "give one number"), (["--word", "-", "0", "1"], b"", "give one number"),
                                 (["--word", "-", "3"], b"a b", "- has only 2 words"), (["-", "0"], b"\x89GOAL", "- is a compiled file"),
                                 (["/no/such/file", "0"], b"", "/no/such/file: No such file"), (["-"], b"", "standard input has the lines"), (["--word", "-"], b"a", "give one number")):
            ended = located(*words, text=text)
            self.assertEqual((ended.returncode, ended.stdout, ended.stderr.count(b"\n")), (2, b"", 1), words)
            self.assertTrue(ended.stderr.decode().startswith(f"locate: {why}"), ended.stderr)


if __name__ == "__main__":
    unittest.main(verbosity=0)
