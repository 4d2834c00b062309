#!/usr/bin/env python3
"""Tests of what all tools share: calls of the program, and errors as one line with status 2."""
from __future__ import annotations

import os
import re
import shlex
import subprocess
import sys
import tempfile
import unittest

TOP = os.path.dirname(os.path.dirname(os.path.dirname(os.path.abspath(__file__))))
sys.path[:0] = [os.path.join(TOP, "tools"), os.path.join(TOP, ".ci")]
import tool_calls
from common import command, program


def nameless(text: str, *names: str) -> str:
    """The text with each of the names replaced by FILE, except inside longer names."""
    for name in names:
        text = re.sub(rf"(?<![\w/.-]){re.escape(name)}(?![\w/-])", "FILE", text)
    return text


class Calls(unittest.TestCase):
    def test_a_text_is_the_standard_input(self) -> None:
        answer = program.call(program.chosen(), ["sim", "/dev/stdin"], "num_ranks 1 rank 0 { calc 100 }")
        self.assertEqual((answer.status, answer.out.splitlines()[0]), (program.DONE, "ranks 1 ops 1 stuck 0 unread 0 finish 100"))

    def test_a_refusal_is_a_fault_with_its_message(self) -> None:
        answer = program.call(program.chosen(), ["sim", "/dev/stdin"], "num_ranks 1 rank 1 { }")
        with self.assertRaisesRegex(command.Fault, "^goal: refused: text: rank at 17$"):
            program.expect(answer, program.DONE, program.STUCK)

    def test_a_missing_program_is_a_fault(self) -> None:
        with self.assertRaises(command.Fault):
            program.call("/no/such/program", ["sim"])


class Tools(unittest.TestCase):
    """What holds for each tool: for example, it has a help, and wrong arguments give one line and status 2."""

    def names(self) -> list[str]:
        folder = os.path.join(TOP, "tools")
        return [name for name in sorted(os.listdir(folder)) if os.access(os.path.join(folder, name), os.X_OK)
                and os.path.isfile(os.path.join(folder, name))]

    def ended(self, name: str, *words: str) -> subprocess.CompletedProcess[str]:
        return subprocess.run([os.path.join(TOP, "tools", name), *words], stdin=subprocess.DEVNULL, capture_output=True,
                              text=True, check=False)

    def test_each_has_a_help_and_no_option_is_abbreviated(self) -> None:
        """Each tool is called with its longest option without the last letter. One option is enough, since all are read
        alike."""
        for name in self.names():
            with self.subTest(name):
                ended = self.ended(name, "--help")
                self.assertEqual((ended.returncode, ended.stderr), (0, ""))
                self.assertIn("proved", ended.stdout)
                option = max(sorted(set(re.findall(r"--[A-Za-z][A-Za-z-]*", ended.stdout))), key=len)
                ended = self.ended(name, "x", option[:-1], "1")
                self.assertEqual((ended.returncode, ended.stdout, ended.stderr.count("\n")), (2, "", 1), option)

    def test_an_output_that_is_closed_or_full_is_one_line_and_status_2(self) -> None:
        """Each tool writes its help to a closed output, and its results to a full one. One tool writes both to both."""
        works, closed, full = self.works(), (">&-", "it is closed"), (">/dev/full", "No space left on device")
        for name in self.names():
            for words, outputs in ((["--help"], [closed, full][:1 + (name == "path")]), (works[name], [full, closed][:1 + (name == "path")])):
                for output, why in outputs:
                    call = " ".join(shlex.quote(word) for word in [os.path.join(TOP, "tools", name), *words])
                    ended = subprocess.run(["bash", "-c", f"{call} {output}"], stdin=subprocess.DEVNULL, capture_output=True, text=True, check=False)
                    told = [line for line in ended.stderr.splitlines() if "standard output" in line]
                    self.assertEqual((ended.returncode, told), (2, [f"{name}: standard output: {why}"]), (name, words, output, ended.stderr))
                    self.assertNotIn("Traceback", ended.stderr)

    def test_standard_input_is_a_file_everywhere(self) -> None:
        """A text is given as `-` and as /dev/stdin. The compiled file of a schedule is given only as `-`."""
        for name, words in self.works().items():
            for place, word in enumerate(words):
                key, equals, path = word.rpartition("=")
                if not path.startswith(os.path.join(TOP, "examples")):
                    continue
                wanted = tool_calls.called(name, *words)
                with open(path, "rb") as file:
                    contents = [file.read()]
                if "exchange" in path and name != "locate":
                    with tempfile.NamedTemporaryFile() as file:
                        program.call(program.chosen(), ["compile", path, file.name])
                        contents.append(file.read())
                for content in contents:
                    for one in ("-", "/dev/stdin")[:1 + (content == contents[0])]:
                        given = [*words[:place], f"{key}{equals}{one}", *words[place + 1:]]
                        ended = tool_calls.called_with_bytes(name, *given, given=content)
                        self.assertEqual((ended.returncode, ended.stderr.decode()), (wanted.returncode, wanted.stderr), (name, given))
                        if content == contents[0]:
                            said = ended.stdout.decode().replace("standard input", path)
                            self.assertEqual(nameless(said, path, one), nameless(wanted.stdout, path, one), (name, given))

    def works(self) -> dict[str, list[str]]:
        """For each tool, arguments with which it writes something."""
        exchange = os.path.join(TOP, "examples", "exchange")
        return {"certify": ["bcast", exchange], "check": [exchange], "fold": [exchange, self.pair()], "locate": [exchange, "0", "0"], "machine": [os.path.join(TOP, "examples", "eight_nodes")],
                "path": [exchange], "plot": [self.table(), "--x", "L"],
                "schedule": ["bcast-chain", "2", "8"], "segments": ["bcast", exchange], "sweep": [f"schedule={exchange}", "L=1,2"],
                "timeline": [exchange], "trace": [exchange, "--machine", self.pair()],
                "waits": [exchange]}

    def pair(self) -> str:
        """The path of a description of a machine with two ranks."""
        path = os.path.join(self.folder.name, "pair")
        with open(path, "w", encoding="utf-8") as file:
            file.write("class a L=5\nnodes 2 of 1\ninside a\nbetween a\n")
        return path

    def table(self) -> str:
        """The path of a table of two runs."""
        path = os.path.join(self.folder.name, "table")
        with open(path, "w", encoding="utf-8") as file:
            file.write("L,finish,stuck\n1,5,0\n2,6,0\n")
        return path

    def setUp(self) -> None:
        self.folder = tempfile.TemporaryDirectory()
        self.addCleanup(self.folder.cleanup)

    def test_each_tool_has_arguments_here(self) -> None:
        self.assertEqual(sorted(self.works()), self.names())

    def test_wrong_arguments_are_one_line_and_status_2(self) -> None:
        for name in self.names():
            with self.subTest(name):
                ended = self.ended(name, "--no-such-option")
                self.assertEqual((ended.returncode, ended.stdout, ended.stderr.count("\n")), (2, "", 1))
                self.assertTrue(ended.stderr.startswith(f"{name}: "), ended.stderr)


if __name__ == "__main__":
    unittest.main(verbosity=0)
