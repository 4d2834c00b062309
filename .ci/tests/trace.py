#!/usr/bin/env python3
"""Tests of tools/trace: the JSON has the trace-event format, the spans of a track do not overlap, and flows begin and
end at spans."""
from __future__ import annotations

import json
import os
import sys
import tempfile
import unittest
from typing import Any

TOP = os.path.dirname(os.path.dirname(os.path.dirname(os.path.abspath(__file__))))
sys.path[:0] = [os.path.join(TOP, "tools"), os.path.join(TOP, ".ci")]
import tool_calls
from common import program

EXAMPLES = os.path.join(TOP, "examples")
FIELDS = {
    "X": {"name", "pid", "tid", "ts", "dur"},
    "M": {"name", "pid", "args"},
    "i": {"name", "s", "pid", "tid", "ts"},
    "s": {"name", "cat", "id", "pid", "tid", "ts"},
    "f": {"name", "cat", "id", "pid", "tid", "ts", "bp"},
}


def events(*words: str) -> Any:
    done = tool_calls.called("trace", *words)
    assert done.returncode == 0, done.stderr
    whole = json.loads(done.stdout)
    assert set(whole) == {"displayTimeUnit", "traceEvents"} and whole["displayTimeUnit"] == "ns"
    return whole["traceEvents"]


class Form(unittest.TestCase):
    def check(self, trace: Any) -> None:
        """Checks the requirements of Perfetto."""
        for event in trace:
            self.assertLessEqual(FIELDS[event["ph"]], set(event))
            self.assertTrue(all(isinstance(event[key], int) for key in ("pid", "tid") if key in event))
            self.assertTrue(all(isinstance(event[key], (int, float)) and event[key] >= 0 for key in ("ts", "dur") if key in event))
        self.check_tracks(trace)
        self.check_flows(trace)

    def spans(self, trace: Any) -> dict[tuple[int, int], list[tuple[float, float]]]:
        tracks: dict[tuple[int, int], list[tuple[float, float]]] = {}
        for event in trace:
            if event["ph"] == "X":
                tracks.setdefault((event["pid"], event["tid"]), []).append((event["ts"], event["ts"] + event["dur"]))
        return tracks

    def check_tracks(self, trace: Any) -> None:
        named = {(event["pid"], event["tid"]) for event in trace if event["name"] == "thread_name"}
        for track, spans in self.spans(trace).items():
            self.assertIn(track, named)
            spans.sort()
            self.assertTrue(all(one[1] <= other[0] + 1e-6 for one, other in zip(spans, spans[1:])), track)

    def check_flows(self, trace: Any) -> None:
        spans = self.spans(trace)
        flows: dict[str, list[str]] = {}
        for event in trace:
            if event["ph"] in "sf":
                flows.setdefault(event["id"], []).append(event["ph"])
                around = spans[event["pid"], event["tid"]]
                self.assertTrue(any(begin <= event["ts"] <= end for begin, end in around))
        self.assertTrue(all(ends == ["s", "f"] for ends in flows.values()))

    def test_every_example(self) -> None:
        for name in ("exchange", "large", "waits", "first_come", "both_send_first", "alltoall_send_first", "two_words"):
            with self.subTest(name):
                self.check(events(os.path.join(EXAMPLES, name)))

    def test_a_collective_on_a_machine(self) -> None:
        with tempfile.NamedTemporaryFile("w", suffix=".goal") as file:
            file.write(program.call(program.chosen(), ["gen", "allreduce", "16", "100000"]).out)
            file.flush()
            trace = events(file.name, "--machine", os.path.join(EXAMPLES, "two_nodes"))
        self.check(trace)
        self.assertEqual(len({event["id"] for event in trace if event["ph"] == "s"}), 64)


class Content(unittest.TestCase):
    def test_the_exchange(self) -> None:
        trace = events(os.path.join(EXAMPLES, "exchange"))
        taken = next(event for event in trace if event["name"] == "2 recv from 1")
        self.assertEqual((taken["ts"], taken["dur"], taken["args"]["waited ns"]), (9.908, 1.5, 9908))
        self.assertEqual(taken["args"]["matched with"], "1 2")
        self.assertEqual(taken["args"]["posted ns"], 0)
        waits = [(event["pid"], event["name"]) for event in trace if event.get("tid") == 768 and event["ph"] == "X"]
        self.assertEqual(waits, [(0, "2 recv from 1"), (1, "0 recv from any")])

    def test_tracks_are_few(self) -> None:
        """A rank with many waits has four tracks: its cpu, the two sides of its NIC, and one for its waits."""
        with tempfile.NamedTemporaryFile("w", suffix=".goal") as file:
            file.write(program.call(program.chosen(), ["gen", "alltoall", "12", "1000"]).out)
            file.flush()
            trace = events(file.name)
        names = [event["args"]["name"] for event in trace if event["name"] == "thread_name" and event["pid"] == 3]
        self.assertEqual(names, ["cpu 0", "nic 0 sends", "nic 0 receives", "waits"])

    def test_the_sides_of_a_nic_and_the_path(self) -> None:
        trace = events(os.path.join(EXAMPLES, "exchange"), "--path")
        sent = [event for event in trace if event["ph"] == "X" and event["tid"] == 256 and event["pid"] == 0]
        self.assertEqual([(event["ts"], event["dur"]) for event in sent], [(0.1, 1.054)])
        self.assertEqual([event["ts"] for event in trace if event["ph"] == "f" and event["name"] == "path"], [0.1, 4.154, 5.654, 5.854, 9.908, 11.408])

    def test_labels(self) -> None:
        trace = events(os.path.join(EXAMPLES, "exchange"))
        self.assertIn("b", [event["args"].get("label") for event in trace if event["ph"] == "X" and "args" in event])

    def test_an_output_that_can_not_be_written_is_reported_first(self) -> None:
        done = tool_calls.called("trace", os.path.join(EXAMPLES, "exchange"), "-o", "/no/such/file", "--goal", "/no/such")
        self.assertEqual((done.returncode, done.stderr), (2, "trace: /no/such/file: No such file or directory\n"))

    def test_arguments_do_not_repeat_what_a_span_shows(self) -> None:
        trace = events(os.path.join(EXAMPLES, "large"))
        spans = [event for event in trace if event["ph"] == "X" and event.get("cat") == "send"]
        self.assertEqual([(event["name"].split(":")[1:], "args" in event) for event in spans], [([" request"], False), ([], True)])
        self.assertFalse({"start ns", "end ns", "tag", "calc ns"} & {name for event in trace for name in event.get("args", ())})

    def test_a_trace_is_small(self) -> None:
        """The limit is such that 23,000 operations of 512 ranks take less than 10 MB."""
        with tempfile.NamedTemporaryFile("w", suffix=".goal") as file:
            file.write(program.call(program.chosen(), ["gen", "allreduce", "64", "100000"]).out)
            file.flush()
            done = tool_calls.called("trace", file.name)
        self.assertEqual(done.returncode, 0, done.stderr)
        self.assertLess(len(done.stdout), 430 * 64 * (6 + 6 + 6))

    def test_stuck_operations(self) -> None:
        names = [event["name"] for event in events(os.path.join(EXAMPLES, "both_send_first"))]
        self.assertIn("stuck: 0 send to 1", names)
        self.assertIn("never begins: 1 recv from 1", names)

    def test_only_some_ranks(self) -> None:
        trace = events(os.path.join(EXAMPLES, "first_come"), "--ranks", "1-2")
        self.assertEqual({event["pid"] for event in trace}, {1, 2})


if __name__ == "__main__":
    unittest.main(verbosity=0)
