#!/usr/bin/env python3
"""Tests of tools/timeline, and of what it and tools/trace derive from a run: waits, and stuck operations."""
from __future__ import annotations

import os
import subprocess
import sys
import tempfile
import unittest
import xml.etree.ElementTree

TOP = os.path.dirname(os.path.dirname(os.path.dirname(os.path.abspath(__file__))))
sys.path[:0] = [os.path.join(TOP, "tools"), os.path.join(TOP, ".ci")]
import tool_calls
from common import program
from common.canonical import Key, read_canonical
from common.parameters import Alike, machine_of, options_of, parameters_of
from common.phases import Misfit, Story, Window, stories_of
from common.printed_run import NoRun, read_run
from common.scales import Scale, in_unit, log_ends, plain, unit_for

EXAMPLES = os.path.join(TOP, "examples")
SVG = "{http://www.w3.org/2000/svg}"


def goal(*words: str) -> str:
    return program.call(program.chosen(), words).out


def stories(name: str, ranks: range | None = None, **options: int) -> dict[Key, Story]:
    """The stories of a run of an example, with these options of `goal sim`."""
    path = os.path.join(EXAMPLES, name)
    words = [word for key, value in options.items() for word in (f"--{key}", str(value))]
    run = read_run(goal("sim", path, *words).splitlines(), ranks)
    schedule = read_canonical(goal("show", path).splitlines(), ranks)
    return stories_of(schedule, run, Alike(parameters_of(options)), Window(ranks or range(run.ranks)))


def timeline(*words: str, text: str | None = None) -> subprocess.CompletedProcess[str]:
    return tool_calls.called("timeline", *words, given=text)


class Stories(unittest.TestCase):
    def test_a_receive_waits_for_its_message(self) -> None:
        taken = stories("exchange")[0, 2]
        self.assertEqual((taken.waits, taken.busy, taken.bytes), ([(0, 9908)], [(9908, 11408)], 10))

    def test_waits_are_those_that_goal_reports(self) -> None:
        for name in ("exchange", "waits", "first_come", "two_words", "busy_cpu", "large"):
            with self.subTest(name):
                path = os.path.join(EXAMPLES, name)
                waited = {key: story.wait for key, story in stories(name).items() if story.wait}
                lines = [line.split() for line in goal("waits", path).splitlines() if line.startswith("wait ")]
                self.assertEqual(waited, {(int(rank), int(op)): int(wait) for _, rank, op, wait in lines})

    def test_a_rendezvous_send_has_a_request_and_data(self) -> None:
        sent = stories("large")[0, 0]
        self.assertEqual((sent.busy, sent.waits), ([(0, 1500), (6500, 8000)], [(1500, 6500)]))

    def test_stuck_operations(self) -> None:
        found = stories("both_send_first")
        self.assertEqual((found[0, 0].stuck_from, found[0, 0].never, found[0, 0].reason), (1500, False, "for partner 1 1"))
        self.assertTrue(found[0, 1].never)

    def test_only_some_ranks(self) -> None:
        self.assertEqual(set(stories("first_come", range(0, 1))), {(0, 0), (0, 1)})

    def test_a_run_of_other_parameters_is_refused(self) -> None:
        path = os.path.join(EXAMPLES, "exchange")
        run = read_run(goal("sim", path, "--o", "10").splitlines())
        schedule = read_canonical(goal("show", path).splitlines())
        with self.assertRaises(Misfit):
            list(stories_of(schedule, run, Alike(parameters_of({"o": 100000})), Window(range(2))))

    def test_a_machine_has_classes(self) -> None:
        with open(os.path.join(EXAMPLES, "two_nodes"), encoding="utf-8") as file:
            machine = machine_of(file.read())
        self.assertEqual((machine.between(0, 7).o, machine.between(0, 8).o), (200, 400))


class Reading(unittest.TestCase):
    def test_a_rate_is_one_number(self) -> None:
        self.assertEqual(options_of("G", "0.080"), {"G": 0, "Gp": 80})
        self.assertEqual(options_of("O", "1.5"), {"O": 1, "Op": 500})
        self.assertEqual(options_of("G", "6"), {"G": 6})
        for name, text in (("G", "0.0801"), ("L", "1.5"), ("S", "-1")):
            with self.assertRaises(ValueError):
                options_of(name, text)

    def test_a_machine_without_its_class(self) -> None:
        for numbers in ("inside 0 default 7", "inside -1 default 0"):
            with self.assertRaises(ValueError):
                machine_of(f"classes 1 class 1 1 1 1 1 1 1 1 {numbers} ranks 1 0 pairs 0")

    def test_a_text_that_is_no_run(self) -> None:
        for lines in ((), ["rank 0 ended 1 wait 0"], ["ranks 1 ops 1 stuck 0 unread 0 finish 1", "op 0"], ["ranks 1 ops 1 stuck 0 unread 0 finish " + 5000 * "9"]):
            with self.assertRaises(NoRun):
                read_run(lines)


class Scales(unittest.TestCase):
    def test_ticks_are_rounded(self) -> None:
        self.assertEqual(Scale(0, 11408, 0, 1).ticks(7), [0, 2000, 4000, 6000, 8000, 10000])
        self.assertEqual(Scale(0, 1, 0, 1).ticks(5), [0, 0.2, 0.4, 0.6, 0.8, 1.0])
        self.assertEqual(Scale(1, 1000, 0, 1, True).ticks(5), [1, 10, 100, 1000])
        self.assertEqual(Scale(20, 600, 0, 1, True).ticks(9), [20, 50, 100, 200, 500])

    def test_units(self) -> None:
        self.assertEqual((unit_for(11408), unit_for(900), plain(1234567.5)), ((1000, "µs"), (1, "ns"), "1,234,567.5"))
        self.assertEqual((in_unit(16384, ((1, "B"), (1024, "KiB"))), log_ends(3, 700)), ("16 KiB", (2, 1000)))


class Pictures(unittest.TestCase):
    def drawn(self, *words: str, text: str | None = None) -> xml.etree.ElementTree.Element:
        """The picture as a tree of elements."""
        done = timeline(*words, text=text)
        self.assertEqual((done.returncode, done.stderr), (0, ""))
        return xml.etree.ElementTree.fromstring(done.stdout)

    def texts(self, picture: xml.etree.ElementTree.Element) -> list[str]:
        return [list(text.itertext())[-1] for text in picture.iter(SVG + "text")]

    def test_the_picture_of_the_exchange(self) -> None:
        texts = self.texts(self.drawn(os.path.join(EXAMPLES, "exchange")))
        for text in ("rank 0", "rank 1", "1 b: send to 1", "0 c: recv from 0", "nic 0 tx", "waits 9,908 ns", "calc", "message and its receive"):
            self.assertIn(text, texts)

    def test_the_sides_of_nics(self) -> None:
        """A picture has a rect for each span for which a side is held, or none with --no-nics."""
        name = os.path.join(EXAMPLES, "exchange")
        for option, count in (("--nics", 4), ("--no-nics", 0)):
            picture = self.drawn(name, option)
            self.assertEqual(len([it for it in picture.iter(SVG + "rect") if it.get("fill") in ("#8fb4e3", "#f2bf8c") and it.get("stroke")]), count)

    def test_the_path_is_a_strong_line(self) -> None:
        picture = self.drawn(os.path.join(EXAMPLES, "exchange"), "--path")
        self.assertEqual(len([it for it in picture.iter(SVG + "path") if it.get("stroke") == "#8b1a8b"]), 1)
        self.assertIn("what held up the last end", self.texts(picture))

    def test_with_many_messages_only_the_path_is_drawn(self) -> None:
        with tempfile.NamedTemporaryFile("w", suffix=".goal") as file:
            file.write(goal("gen", "alltoall", "16", "8"))
            file.flush()
            whole, path = self.drawn(file.name), self.drawn(file.name, "--path")
            some = self.drawn(file.name, "--ranks", "0-3")
        self.assertIn("message and its receive", self.texts(whole))
        self.assertNotIn("message and its receive", self.texts(path))
        self.assertIn("4 of 16 ranks", " ".join(self.texts(some)))

    def test_stuck_operations_are_red(self) -> None:
        picture = self.drawn(os.path.join(EXAMPLES, "both_send_first"))
        self.assertIn("never begins: 1", self.texts(picture))
        self.assertEqual(len([it for it in picture.iter(SVG + "rect") if it.get("stroke") == "#cc2233"]), 3)

    def test_a_message_that_no_receive_takes(self) -> None:
        with tempfile.NamedTemporaryFile("w", suffix=".goal") as file:
            file.write("num_ranks 2 rank 0 { send 8b to 1 tag 1 } rank 1 { recv 8b from 0 tag 2 }")
            file.flush()
            self.assertIn("taken by no receive", self.texts(self.drawn(file.name)))

    def test_a_run_that_is_printed_already(self) -> None:
        name = os.path.join(EXAMPLES, "exchange")
        self.assertIn("rank 1", self.texts(self.drawn(name, "--run", "-", text=goal("sim", name))))

    def test_a_schedule_from_a_pipe(self) -> None:
        self.assertIn("rank 2", self.texts(self.drawn("-", text=goal("gen", "bcast", "3", "8"))))

    def test_all_texts_are_inside_the_picture(self) -> None:
        for words in (["exchange"], ["first_come"], ["alltoall_send_first"], ["alltoall_send_first", "--S", "100000"]):
            picture = self.drawn(os.path.join(EXAMPLES, words[0]), *words[1:])
            width, height = float(picture.attrib["width"]), float(picture.attrib["height"])
            for text in picture.iter(SVG + "text"):
                with self.subTest(words=words, text=text.text):
                    self.assertTrue(0 <= float(text.attrib["x"]) <= width and 0 <= float(text.attrib["y"]) <= height)

    def test_a_large_run_is_refused_as_a_whole(self) -> None:
        with tempfile.NamedTemporaryFile("w", suffix=".goal") as file:
            file.write(goal("gen", "alltoall", "64", "8"))
            file.flush()
            done = timeline(file.name)
            self.assertEqual((done.returncode, done.stdout), (2, ""))
            self.assertIn("the limit is 4000", done.stderr)
            picture = self.drawn(file.name, "--ranks", "0-3", "--to", "50000")
            self.assertLess(float(picture.attrib["height"]), 400)

    def test_ends_in_a_window_can_exceed_the_limit(self) -> None:
        done = timeline(os.path.join(EXAMPLES, "exchange"), "--from", "1", "--limit", "2")
        self.assertEqual((done.returncode, done.stderr), (2, "timeline: 6 operations or more, and the limit is 2: choose some by --ranks, --from and --to, or raise --limit\n"))

    def test_operations_that_never_begin_count(self) -> None:
        done = timeline(os.path.join(EXAMPLES, "both_send_first"), "--limit", "3")
        self.assertEqual((done.returncode, done.stdout), (2, ""))
        self.assertIn("4 operations, and the limit is 3", done.stderr)

    def test_faults_are_one_line(self) -> None:
        name = os.path.join(EXAMPLES, "exchange")
        for words in (
            ["-", "--run", "-"], [name, "--G", "0.08", "--Gp", "8"], [name + "s"], [name, "--ranks", "2"], [name, "--ranks", "1-0"], [name, "--ranks", "x"], [name, "--G", "1.2345"],
            [name, "--from", "5", "--to", "5"], [name, "--run", name], [name, "--machine", name], [name, "-o", "/no/such/file"],
            [name, "--L", "x"], [os.path.join(EXAMPLES, "cycle")],
        ):  # fmt: skip
            with self.subTest(words):
                done = timeline(*words)
                self.assertEqual((done.returncode, done.stdout, done.stderr.count("\n")), (2, "", 1), done.stderr)


if __name__ == "__main__":
    unittest.main(verbosity=0)
