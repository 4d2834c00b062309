#!/usr/bin/env python3
"""Tests of tools/sweep: its ranges, its grid, its table, which is compared with output of `goal`, and its curves."""
from __future__ import annotations

import os
import pty
import signal
import subprocess
import sys
import tempfile
import time
import unittest
import xml.etree.ElementTree
from decimal import Decimal
from typing import Any

TOP = os.path.dirname(os.path.dirname(os.path.dirname(os.path.abspath(__file__))))
sys.path[:0] = [os.path.join(TOP, "tools"), os.path.join(TOP, ".ci")]
import tool_calls
from common import program

SVG = "{http://www.w3.org/2000/svg}"
EXCHANGE = os.path.join(TOP, "examples", "exchange")


def sweep(*words: str, text: str = "") -> subprocess.CompletedProcess[str]:
    return tool_calls.called("sweep", *words, given=text)


def table(*words: str) -> list[list[str]]:
    """The lines of the table, as lists of fields."""
    done = sweep(*words)
    assert (done.returncode, errors(done)) == (0, []), done.stderr
    return [line.split(",") for line in done.stdout.splitlines()]


def errors(done: subprocess.CompletedProcess[str]) -> list[str]:
    """The lines on standard error, without the one that names the parameters that were not given."""
    return [line for line in done.stderr.splitlines() if not line.startswith("sweep: not given: ")]


def rows(names: list[str], *words: str) -> list[list[str]]:
    """The rows of the table, with only these columns."""
    lines = table(*words)
    return [[line[lines[0].index(name)] for name in names] for line in lines[1:]]


def column(name: str, *words: str) -> list[str]:
    lines = table(*words)
    return [line[lines[0].index(name)] for line in lines[1:]]


class Axes(unittest.TestCase):
    def values(self, axis: str, text: str) -> list[str]:
        return column(axis, f"schedule={EXCHANGE}", f"{axis}={text}")

    def test_ranges(self) -> None:
        self.assertEqual(self.values("L", "500..3000+1000"), ["500", "1500", "2500"])
        self.assertEqual(self.values("S", "1K..16Kx4"), ["1024", "4096", "16384"])
        self.assertEqual(self.values("o", "1,2,8..32x2,2"), ["1", "2", "8", "16", "32"])
        self.assertEqual(self.values("G", "0.020..0.080+0.030"), ["0.020", "0.050", "0.080"])
        self.assertEqual(self.values("G", "0.010..0.100x2.5"), ["0.010", "0.025", "0.062"])
        self.assertEqual(self.values("O", "0..2+1"), ["0", "1", "2"])

    def test_a_grid_is_in_the_order_of_its_arguments(self) -> None:
        lines = table(f"schedule={EXCHANGE}", "L=1,2", "o=3,4")
        self.assertEqual([line[1:3] for line in lines[1:]], [["1", "3"], ["1", "4"], ["2", "3"], ["2", "4"]])

    def test_an_option_is_empty_if_the_algorithm_does_not_take_it(self) -> None:
        lines = table("algorithm=bcast,bcast-chain", "ranks=4", "size=8", "segments=1,2")
        self.assertEqual([line[:4] for line in lines[1:]], [["bcast", "4", "8", ""], ["bcast-chain", "4", "8", "1"], ["bcast-chain", "4", "8", "2"]])

    def test_faults_are_one_line(self) -> None:
        for words in (
            ["L=1"], ["schedule=x", "ranks=4"], ["algorithm=bcast", "ranks=4"], ["algorithm=none", "ranks=4", "size=8"],
            [f"schedule={EXCHANGE}", "L=1.5"], [f"schedule={EXCHANGE}", "L=5..1x0"], [f"schedule={EXCHANGE}", "L=1..5+0"],
            [f"schedule={EXCHANGE}", "L="], [f"schedule={EXCHANGE}", "L=1", "L=2"], [f"schedule={EXCHANGE}", "X=1"],
            [f"schedule={EXCHANGE}", "machine=x", "L=1"], [f"schedule={EXCHANGE}", "cards=1"], [f"schedule={EXCHANGE}", "machine=x", "cards=0"],
            [f"schedule={EXCHANGE}", "machine=x", "placement=none"], [f"schedule={EXCHANGE}", "--plot", "/tmp/x.svg"], ["schedule=/no/such/file"],
            [f"schedule={EXCHANGE}", "L=1,2", "--plot", "/no/such/file"],
        ):  # fmt: skip
            with self.subTest(words):
                done = sweep(*words)
                self.assertEqual((done.returncode, len(errors(done))), (2, 1), done.stderr)


class Results(unittest.TestCase):
    def test_the_exchange(self) -> None:
        self.assertEqual(table(f"schedule={EXCHANGE}"), [
            ["schedule", "L", "o", "g", "G", "O", "S", "finish", "stuck", "protocol"],
            [EXCHANGE, "2500", "1500", "1000", "6", "0", "65535", "11408", "0", "eager"]])
        self.assertEqual(rows(["finish", "stuck", "wait", "protocol"], f"schedule={EXCHANGE}", "--wait"), [["11408", "0", "9908", "eager"]])

    def test_results_are_those_of_goal(self) -> None:
        for size in ("8", "100000"):
            text = program.call(program.chosen(), ["gen", "reduce", "6", size, "--root", "2"]).out
            words = ["--G", "0", "--Gp", "80", "--L", "700"]
            finish = program.call(program.chosen(), ["sim", "/dev/stdin", *words], text).out.split()[9]
            waits = program.call(program.chosen(), ["waits", "/dev/stdin", *words], text).out
            greatest = next(line.split()[3] for line in waits.splitlines() if line.startswith("wait"))
            lines = rows(["finish", "stuck", "wait", "protocol"], "algorithm=reduce", "ranks=6", f"size={size}", "root=2", "G=0.080", "L=700", "--wait")
            self.assertEqual(lines, [[finish, "0", greatest, "eager" if size == "8" else "rendezvous"]])

    def test_stuck_runs(self) -> None:
        hung = os.path.join(TOP, "examples", "both_send_first")
        self.assertEqual(column("stuck", f"schedule={hung}", "S=99999,100000"), ["4", "0"])

    def test_a_machine(self) -> None:
        machines = ",".join(os.path.join(TOP, "examples", name) for name in ("two_nodes", "one_class"))
        words = ["algorithm=allreduce", "ranks=16", "size=1000", f"machine={machines}"]
        self.assertEqual(column("finish", *words, "cards=own"), ["5080", "9520"])
        done = sweep(*words)
        self.assertEqual((done.returncode, done.stderr), (0, "sweep: each rank has a card of its own here; cards=1 lets the ranks of a node share one\n"))

    def test_cards_and_placements(self) -> None:
        """On two nodes of two ranks, ranks 0 and 1 send to ranks 2 and 3. With one card, the second message waits for
        the first."""
        with tempfile.TemporaryDirectory() as folder:
            names = [os.path.join(folder, name) for name in ("schedule", "cluster", "shared")]
            cluster = "class memory L=10 o=5 g=1 G=0\nclass cable L=1000 o=100 g=50 G=1\ninside memory\nbetween cable\nnodes 2 of 2\n"
            pairs = "".join(f"rank {rank} {{ send 1000b to {rank + 2} }} rank {rank + 2} {{ recv 1000b from {rank} }} " for rank in (0, 1))
            for name, text in zip(names, ("num_ranks 4 " + pairs, cluster, cluster + "cards 1\n")):
                with open(name, "w", encoding="utf-8") as file:
                    file.write(text)
            words = [f"schedule={names[0]}", f"machine={names[1]}"]
            self.assertEqual(table(*words, "cards=own,1,2,2 in turn", "placement=block,cyclic", "--wait")[1:], [
                [*names[:2], cards, placement, finish, "0", wait, "eager"] for cards, placement, finish, wait in (
                    ("own", "block", "2199", "2099"), ("own", "cyclic", "20", "15"), ("1", "block", "3248", "3148"),
                    ("1", "cyclic", "20", "15"), ("2", "block", "2199", "2099"), ("2", "cyclic", "20", "15"),
                    ("2 in turn", "block", "2199", "2099"), ("2 in turn", "cyclic", "20", "15"))])
            self.assertEqual(column("finish", words[0], f"machine={names[2]}"), ["3248"])
            self.assertEqual(column("finish", words[0], f"machine={names[2]}", "cards=own"), ["2199"])

    def test_refused_runs_are_reported_and_the_others_are_kept(self) -> None:
        done = sweep("algorithm=allreduce", "ranks=4..8+1", "size=8")
        self.assertEqual(done.returncode, 2)
        self.assertIn("3 of 5 runs failed, the first at algorithm=allreduce ranks=5 size=8: goal: refused: generator: power of two", done.stderr)
        self.assertEqual([line.endswith(",,") for line in done.stdout.splitlines()[1:]], [False, True, True, True, False])

    def test_without_any_run_no_picture_is_drawn(self) -> None:
        with tempfile.TemporaryDirectory() as folder:
            done = sweep("algorithm=allreduce", "ranks=5,6", "size=8", "--plot", os.path.join(folder, "picture"))
            self.assertEqual((done.returncode, len(errors(done)), os.listdir(folder)), (2, 1, []))
        self.assertIn("2 of 2 runs failed, the first at algorithm=allreduce ranks=5 size=8: goal: ", done.stderr)

    def test_progress_is_shown_on_a_terminal(self) -> None:
        ours, its = pty.openpty()
        words = [os.path.join(TOP, "tools", "sweep"), f"schedule={EXCHANGE}", "L=1,2"]
        done = subprocess.run(words, stdout=subprocess.DEVNULL, stderr=its, check=False)
        os.close(its)
        told = os.read(ours, 4096)
        os.close(ours)
        self.assertEqual((done.returncode, (told.split(b"\r")[-1].strip() or told.split(b"\r")[-2]).strip()), (0, b"sweep: 2 of 2 runs"))

    def test_one_job_and_many_give_the_same(self) -> None:
        words = ["algorithm=scan,reduce", "ranks=2..8+2", "size=1..64x4"]
        self.assertEqual(sweep(*words, "--jobs", "1").stdout, sweep(*words, "--jobs", "8").stdout)


def is_ended(number: int) -> bool:
    """Whether the process with this number ends within ten seconds."""
    for _ in range(100):
        try:
            os.kill(number, 0)
        except ProcessLookupError:
            return True
        time.sleep(0.1)
    return False


class Lasting(unittest.TestCase):
    """Finished rows are kept, and nothing is left in the temporary folder."""

    WORDS = (f"schedule={EXCHANGE}", "L=1..4000+1")

    def setUp(self) -> None:
        holder = tempfile.TemporaryDirectory()
        self.addCleanup(holder.cleanup)
        self.folder, self.path = os.path.join(holder.name, "temporary"), os.path.join(holder.name, "rows.csv")
        os.mkdir(self.folder)

    def begun(self, *words: str, **how: object) -> subprocess.Popen[str]:
        """Starts a sweep. It can be interrupted, even if a shell made this test ignore interrupts."""
        call: Any = subprocess.Popen
        begun: subprocess.Popen[str] = call([os.path.join(TOP, "tools", "sweep"), *words], stderr=subprocess.PIPE, text=True,
                                            env={**os.environ, "TMPDIR": self.folder},
                                            preexec_fn=lambda: signal.signal(signal.SIGINT, signal.SIG_DFL), **how)
        return begun

    def test_a_signal_keeps_the_finished_rows(self) -> None:
        for number, status in ((signal.SIGINT, 130), (signal.SIGTERM, 143)):
            with self.begun(*self.WORDS, stdout=subprocess.PIPE) as running:
                assert running.stdout
                lines = [running.stdout.readline() for _ in range(5)]
                running.send_signal(number)
                lines += running.stdout.read().splitlines(True)
                running.wait()
            self.assertEqual((running.returncode, os.listdir(self.folder)), (status, []))
            self.assertEqual([line.split(",")[1] for line in lines[1:]], [str(at) for at in range(1, len(lines))])
            self.assertTrue(all(line.endswith(",eager\n") for line in lines[1:]))

    def test_a_signal_ends_the_programs_that_run(self) -> None:
        """The program is a fake one that records its process number and sleeps."""
        program_path, said = os.path.join(self.folder, "..", "sleeps"), os.path.join(self.folder, "..", "who")
        with open(program_path, "w", encoding="utf-8") as file:
            file.write(f"#!/bin/sh\necho $$ >>{said}\nexec sleep 600\n")
        os.chmod(program_path, 0o755)
        with self.begun(*self.WORDS, "--goal", program_path, "--jobs", "2", stdout=subprocess.DEVNULL) as running:
            while not os.path.exists(said) or not os.path.getsize(said):
                time.sleep(0.05)
            running.terminate()
            running.wait()
        with open(said, encoding="utf-8") as file:
            self.assertTrue(all(is_ended(int(number)) for number in file))
        self.assertEqual(os.listdir(self.folder), [])

    def test_a_closed_pipe_and_a_full_disk(self) -> None:
        with self.begun(*self.WORDS, stdout=subprocess.PIPE) as running:
            assert running.stdout and running.stderr
            self.assertEqual(running.stdout.readline().split(",")[0], "schedule")
            running.stdout.close()
            self.assertEqual((running.wait(), os.listdir(self.folder)), (5, []))
        with open("/dev/full", "w", encoding="utf-8") as full, self.begun(*self.WORDS, stdout=full) as running:
            assert running.stderr
            told = running.stderr.read().splitlines()[-1]
        self.assertEqual((running.returncode, told, os.listdir(self.folder)), (2, "sweep: standard output: No space left on device", []))
        self.assertIn("/dev/full: not a regular file", sweep(*self.WORDS, "--into", "/dev/full").stderr)

    def test_a_file_that_cannot_grow_keeps_its_whole_rows(self) -> None:
        """A limit on the size of files simulates a full disk."""
        call = f"ulimit -f 1; exec {os.path.join(TOP, 'tools', 'sweep')} schedule={EXCHANGE} L=1..40+1 --into {self.path} --jobs 1"
        done = subprocess.run(["bash", "-c", call], capture_output=True, text=True, check=False)
        self.assertEqual((done.returncode, errors(done)), (2, [f"sweep: {self.path}: File too large"]))
        self.assertEqual(self.into("L=1..40+1").returncode, 0)
        self.assertEqual([line.split(",")[1] for line in self.read().splitlines()[1:]], [str(at) for at in range(1, 41)])

    def into(self, *words: str) -> subprocess.CompletedProcess[str]:
        return sweep(f"schedule={EXCHANGE}", *words, "--into", self.path)

    def read(self) -> str:
        with open(self.path, encoding="utf-8") as file:
            return file.read()

    def test_a_file_is_continued_where_it_ends(self) -> None:
        self.assertEqual(self.into("L=1..6+1").returncode, 0)
        whole = self.read()
        lines = whole.splitlines(True)
        self.assertEqual((len(lines), len({line.rsplit(",", 1)[1] for line in lines[1:]})), (7, 1))
        for cut in ("", lines[0][:9], "".join(lines[:1]), "".join(lines[:4]), "".join(lines[:4]) + lines[4][:9], whole):
            with open(self.path, "w", encoding="utf-8") as file:
                file.write(cut)
            self.assertEqual((self.into("L=1..6+1").returncode, self.read()), (0, whole))
        # (rows that exist are not run again)
        with open(self.path, "w", encoding="utf-8") as file:
            file.write("".join(lines[:2]).replace(",eager,", ",kept,"))
        self.into("L=1..6+1")
        self.assertEqual(self.read(), whole.replace(",eager,", ",kept,", 1))

    def test_other_rows_are_refused(self) -> None:
        self.into("L=1,2")
        kept = self.read()
        for words, why in ((["L=1,3"], "rows.csv:3: a row of other axes: L is 2 there, and 3 in this grid"), (["o=1", "L=1,2"], "rows.csv:1: the columns are "),
                           (["L=1"], "rows.csv:3: the grid has only 1 points"), (["L=1,2", "--wait"], "rows.csv:1: the columns are ")):
            done = self.into(*words)
            self.assertEqual((done.returncode, self.read()), (2, kept))
            self.assertIn(why, errors(done)[0])
        with open(self.path, "w", encoding="utf-8") as file:
            file.write(kept.replace(kept.rsplit(",", 1)[1].strip(), "0123456789ab"))
        self.assertIn("rows.csv:2: the program is 0123456789ab there, and ", self.into("L=1,2,3").stderr)

    def test_a_run_that_was_refused_is_remembered(self) -> None:
        for _ in range(2):
            done = sweep("algorithm=allreduce", "ranks=4,5", "size=8", "--into", self.path)
            self.assertEqual(done.returncode, 2)
            self.assertIn("1 of 2 runs failed, the first at algorithm=allreduce ranks=5 size=8: ", done.stderr)

    def test_a_picture_that_cannot_be_written_is_refused_first(self) -> None:
        for path, why in (("/no/such/picture", "No such file or directory"), (self.folder, "Is a directory")):
            done = sweep(*self.WORDS, "--plot", path, "--goal", "/no/such/program")
            self.assertEqual((done.returncode, done.stdout, done.stderr), (2, "", f"sweep: {path}: {why}\n"))


class Parameters(unittest.TestCase):
    def test_the_table_has_all_parameters_and_defaults_are_named(self) -> None:
        done = sweep("algorithm=bcast,allreduce-ring", "ranks=4", "size=8", "g=5")
        self.assertEqual(done.stdout.splitlines(), [
            "algorithm,ranks,size,g,root,segments,sum-ps,L,o,G,O,S,finish,stuck,protocol",
            "bcast,4,8,5,0,,,2500,1500,6,0,65535,11084,0,eager", "allreduce-ring,4,8,5,,1,0,2500,1500,6,0,65535,33036,0,eager"])
        self.assertEqual(done.stderr, "sweep: not given: root=0, segments=1, sum-ps=0 ps per byte (sums cost no time), L=2500 ns, o=1500 ns, "
                                      "G=6 ns per byte (1.3 Gbit/s), O=0 ns per byte, S=65535 bytes\n")

    def test_given_parameters_are_not_named(self) -> None:
        done = sweep(f"schedule={EXCHANGE}", "L=1", "o=1", "g=1", "G=1", "O=1", "S=1")
        self.assertEqual((done.returncode, done.stderr), (0, ""))

    def test_algorithms_with_one_size_of_messages_are_refused(self) -> None:
        for name in ("gather", "scatter"):
            done = sweep(f"algorithm={name}", "ranks=4", "size=8")
            self.assertEqual((done.returncode, done.stdout), (2, ""))
            self.assertIn(f"give {name}-tree", done.stderr)

    def test_the_protocol(self) -> None:
        words = ["algorithm=bcast-chain", "ranks=3", "segments=4"]
        self.assertEqual(column("protocol", *words, "size=7,8", "S=1"), ["both", "rendezvous"])
        self.assertEqual(column("protocol", *words, "size=64K..512Kx2"), ["eager", "eager", "rendezvous", "rendezvous"])
        self.assertEqual(column("protocol", "algorithm=barrier", "ranks=1", "size=8"), [""])
        machine = os.path.join(TOP, "examples", "two_nodes")
        self.assertEqual(column("protocol", "algorithm=allreduce", "ranks=16", "size=8,100000", f"machine={machine}", "cards=own"), ["eager", "rendezvous"])


class Scaled(unittest.TestCase):
    """Rates that are finer than a picosecond per byte."""

    def test_scaled_times_are_exact(self) -> None:
        """Compared with a run of a schedule whose times are ten times as long, and with rates that need no scale."""
        with open(EXCHANGE, encoding="utf-8") as file:
            text = file.read().replace("calc 100", "calc 1000").replace("calc 200", "calc 2000").replace("10b", "999b")
        words = ["--L", "25000", "--o", "15000", "--g", "10000", "--G", "0", "--Gp", "25"]
        finish = int(program.call(program.chosen(), ["sim", "/dev/stdin", *words], text).out.split()[9])
        with tempfile.NamedTemporaryFile("w") as file:
            file.write(text.replace("calc 1000", "calc 100").replace("calc 2000", "calc 200"))
            file.flush()
            done = sweep(f"schedule={file.name}", "G=0.0025,0.0000,0.001000")
            self.assertEqual(errors(done), ["sweep: times are taken 10 times, for rates finer than a picosecond per byte: bytes cost whole 1/10 ns"])
            lines = [line.split(",") for line in done.stdout.splitlines()[1:]]
            self.assertEqual([line[1] for line in lines], ["0.0025", "0", "0.001"])
            self.assertEqual(lines[0][7], f"{finish / 10:g}")
            self.assertEqual(lines[1][7], column("finish", f"schedule={file.name}", "G=0")[0])
            self.assertEqual(column("finish", f"schedule={file.name}", "G=0.001"), [str(-(-int(float(lines[2][7]) * 10) // 10))])

    def results(self, *words: str) -> list[list[str]]:
        """The columns of the table from `finish` on, row by row."""
        lines = [line.split(",") for line in sweep(*words).stdout.splitlines()]
        return [line[lines[0].index("finish"):] for line in lines[1:]]

    def test_a_description_may_have_such_rates(self) -> None:
        """A description and a MACHINE are compared with the same parameters without a machine."""
        with tempfile.TemporaryDirectory() as folder:
            fine, usual = (os.path.join(folder, name) for name in ("fine", "usual"))
            for path, rate in ((fine, "0.0025"), (usual, "0.080")):
                with open(path, "w", encoding="utf-8") as file:
                    file.write(f"class a L=1500 o=400 g=300 G={rate} S=64K\nnodes 2 of 1\ninside a\nbetween a\n")
            made = tool_calls.called("machine", usual).stdout
            with open(usual, "w", encoding="utf-8") as file:
                file.write(made)
            words = ["algorithm=bcast-chain", "ranks=2", "size=100001", "segments=3", "--wait", "--shares"]
            wanted = self.results(*words, "L=1500", "o=400", "g=300", "S=64K", "G=0.0025,0.080")
            self.assertEqual([line[0] for line in wanted], ["3183.4", "10900"])
            for more in ("cards=own", "cards=1", "placement=block"):
                self.assertEqual(self.results(*words, f"machine={fine},{usual}", more), wanted)
            done = sweep(*words, f"machine={usual},{fine}")
        self.assertIn("sweep: times are taken 10 times, for rates finer than a picosecond per byte: bytes cost whole 1/10 ns\n", done.stderr)

    def test_limits_are_refused_before_any_run(self) -> None:
        for words, why in ((["G=0.0025", "L=1099511627775"], "L is 1099511627775: for a rate finer than a picosecond per byte all times are taken 10 times"),
                           (["G=0.0000025"], "G: 0.0000025 is not a number of ns per byte, with up to 6 decimals"),
                           (["machine=-"], "-:1: L is 1099511627775: for a rate finer than a picosecond per byte all times are taken 10 times"),
                           (["O=0.00001", "G=1048575"], "G is 1048575: for a rate finer than a picosecond per byte all times are taken 100 times")):
            done = sweep(f"schedule={EXCHANGE}", *words, text="class a L=1099511627775 G=0.0025\nnodes 2 of 1\ninside a\nbetween a\n")
            self.assertEqual((done.returncode, done.stdout), (2, ""))
            self.assertTrue(done.stderr.startswith(f"sweep: {why}"), done.stderr)

    def test_a_calc_that_is_too_long_is_reported(self) -> None:
        with tempfile.NamedTemporaryFile("w") as file:
            file.write(f"num_ranks 1 rank 0 {{ calc {2**48 - 1} }}")
            file.flush()
            self.assertIn("a calc times 10 is over ", sweep(f"schedule={file.name}", "G=0.0025").stderr)


class Shares(unittest.TestCase):
    NAMES = ("L", "o", "g", "G", "O", "calc")
    COLUMNS = [f"share_{name}" for name in NAMES]

    def setUp(self) -> None:
        folder = tempfile.TemporaryDirectory()
        self.addCleanup(folder.cleanup)
        self.cluster, self.made = os.path.join(folder.name, "cluster"), os.path.join(folder.name, "made")
        with open(os.path.join(TOP, "examples", "eight_nodes"), encoding="utf-8") as file:
            text = file.read()
        with open(self.cluster, "w", encoding="utf-8") as file:
            file.write(text + "\ncards 2 in turn\n")

    def test_shares_are_those_of_tools_path(self) -> None:
        with open(self.made, "w", encoding="utf-8") as file:
            words = "allreduce-two-level 128 1000 --node 16 --sum-ps 30".split()
            file.write(tool_calls.called("schedule", *words).stdout)
        words = ["algorithm=allreduce-two-level", "ranks=128", "size=1000", "node=16", "sum-ps=30"]
        for of_sweep, of_path in ((["machine=" + self.cluster], ["--machine", self.cluster]),
                                  (["L=700", "o=90", "g=1200", "G=0.080", "O=1", "S=300"],
                                   "--L 700 --o 90 --g 1200 --G 0.080 --O 1 --S 300".split())):  # fmt: skip
            path = tool_calls.called("path", self.made, *of_path).stdout
            wanted = dict.fromkeys(self.NAMES, 0)
            for line in path[path.index("\nof ") :].splitlines():
                if line.startswith("  "):
                    wanted[line.split()[0]] += int(line.split("%")[0].split()[-2])
            found = rows(["finish", *self.COLUMNS], *words, *of_sweep, "--shares")
            self.assertEqual(found, [[path.split()[9], *map(str, wanted.values())]])

    def test_shares_add_up(self) -> None:
        """Also for rates finer than a picosecond, for stuck runs, and with other cards than those of the machine."""
        examples = [os.path.join(TOP, "examples", name) for name in ("exchange", "first_come", "both_send_first", "waits")]
        for words in ([f"schedule={','.join(examples)}", "G=0.0025,6", "O=0,7"],
                      [f"machine={self.cluster}", "cards=own,1", "placement=block,cyclic", "algorithm=bcast", "ranks=128",
                       "size=100"]):  # fmt: skip
            lines = [line.split(",") for line in sweep(*words, "--shares").stdout.splitlines()]
            self.assertGreater(len(lines), 4)
            finish, first = lines[0].index("finish"), lines[0].index("share_L")
            for line in lines[1:]:
                self.assertEqual(sum(map(Decimal, line[first : first + 6])), Decimal(line[finish]))

    def test_shares_can_be_drawn(self) -> None:
        with tempfile.TemporaryDirectory() as folder:
            path = os.path.join(folder, "picture")
            words = [f"schedule={EXCHANGE}", "L=1..3+1", "--y", "share_L", "--plot", path]
            self.assertEqual(errors(sweep(*words)), ["sweep: --y share_L needs --shares"])
            self.assertEqual((sweep(*words, "--shares").returncode, os.path.exists(path)), (0, True))


class Crossings(unittest.TestCase):
    WORDS = ("ranks=16", "size=1K..1Mx32", "segments=8", "L=1500", "o=400", "g=300", "G=0.080", "--x", "size")

    def test_a_crossing_is_between_two_successive_sizes(self) -> None:
        done = sweep(*self.WORDS, "--cross", "bcast,bcast-chain")
        lines = [line.split(",") for line in done.stdout.splitlines()]
        columns = [lines[0].index(name) for name in ("size", "algorithm", "finish")]
        found = [[line[at] for at in columns] for line in lines[1:]]
        self.assertEqual((done.returncode, len(found)), (0, 4), done.stderr)
        low, high = int(found[0][0]), int(found[2][0])
        self.assertEqual(([row[:2] for row in found], high - low),
                         ([[str(size), name] for size in (low, high) for name in ("bcast", "bcast-chain")], 1))
        self.assertLess(int(found[0][2]), int(found[1][2]))
        self.assertGreaterEqual(int(found[2][2]), int(found[3][2]))
        self.assertIn(f"bcast is faster at size={low}, ", done.stderr)
        wanted = [column("finish", "ranks=16", f"size={low},{high}", f"algorithm={name}", *self.WORDS[2:-2]) for name in ("bcast", "bcast-chain")]
        self.assertEqual([[row[2] for row in found if row[1] == name] for name in ("bcast", "bcast-chain")], wanted)

    def test_no_crossing_is_reported(self) -> None:
        done = sweep("ranks=4", "size=8,16", "--x", "size", "--cross", "bcast,bcast-chain")
        self.assertEqual((done.returncode, len(done.stdout.splitlines()), errors(done)),
                         (0, 1, ["sweep: no crossing at these values: bcast is faster at size=8"]))

    def test_wrong_arguments(self) -> None:
        for words in (["--cross", "bcast", "--x", "size"], ["--cross", "bcast,bcast", "--x", "size"], ["--cross", "bcast,bcast-chain"],
                      ["--cross", "bcast,bcast-chain", "--x", "ranks"], ["--cross", "bcast,bcast-chain", "--x", "size", "--into", "x"],
                      ["--cross", "bcast,none", "--x", "size"], ["--cross", "bcast,bcast-chain", "--x", "size", "algorithm=bcast"]):
            done = sweep("ranks=4", "size=8,16", *words)
            self.assertEqual((done.returncode, done.stdout, len(errors(done))), (2, "", 1), done.stderr)


class Jobs(unittest.TestCase):
    """Commands that run some points each, and gathering their rows."""

    WORDS = ("algorithm=bcast,bcast-chain", "ranks=4", "size=8..64x2", "segments=1,2")

    def listed(self, *words: str) -> list[str]:
        done = sweep(*self.WORDS, "--list", *words)
        self.assertEqual((done.returncode, done.stderr), (0, ""))
        return done.stdout.splitlines()

    def test_commands_give_the_rows_of_the_grid(self) -> None:
        whole = sweep(*self.WORDS).stdout.splitlines()
        commands = self.listed("--each", "5")
        self.assertEqual((len(self.listed()), len(commands)), (len(whole) - 1, 3))
        with tempfile.TemporaryDirectory() as folder:
            paths = [os.path.join(folder, str(at)) for at in range(len(commands))]
            for path, command in reversed(list(zip(paths, commands))):
                with open(path, "w", encoding="utf-8") as file:
                    done = subprocess.run(["sh", "-c", command], stdout=file, stderr=subprocess.PIPE, text=True, check=False)
                self.assertEqual((done.returncode, done.stderr), (0, ""))
            gathered = sweep(*self.WORDS, "--gather", *reversed(paths))
            self.assertEqual((gathered.returncode, gathered.stderr), (0, ""))
            self.assertEqual([line.rsplit(",", 1)[0] for line in gathered.stdout.splitlines()], whole)
            # (a table is missing, and the last line of another is incomplete)
            with open(paths[2], "r+", encoding="utf-8") as file:
                file.truncate(len(file.read()) - 3)
            partly = sweep(*self.WORDS, "--gather", paths[0], paths[2])
            self.assertEqual(partly.returncode, 2)
            self.assertIn("sweep: 6 of 12 points are missing: 6..10 12", partly.stderr.splitlines())
            again = self.listed("--each", "5", "--gather", paths[0], paths[2])
            self.assertEqual([line.split(" --points ")[1].split()[0] for line in again], ["6..10", "12"])

    def test_other_rows_are_refused(self) -> None:
        row = subprocess.run(["sh", "-c", self.listed()[0]], capture_output=True, text=True, check=True).stdout
        with tempfile.TemporaryDirectory() as folder:
            paths = [os.path.join(folder, name) for name in ("one", "other")]
            for text, why in ((row.replace("bcast,4", "bcast,5"), "other:2: a row of other axes: algorithm=bcast ranks=5"), (row.replace("11084", "11085"), "other:2: another result"),
                              (row.replace(row.rsplit(",", 1)[1], "0123456789ab\n").replace(",eager,p", ",eager,p"), "other:"), (row.replace("ranks,", ""), "other:1: the columns are")):
                for path, written in zip(paths, (row, text)):
                    with open(path, "w", encoding="utf-8") as file:
                        file.write(written)
                done = sweep(*self.WORDS, "--gather", *paths)
                self.assertEqual((done.returncode, done.stdout), (2, ""))
                self.assertIn(why, done.stderr)

    def test_wrong_arguments(self) -> None:
        for words in (["--points", "0"], ["--points", "13"], ["--points", "3..2"], ["--points", "x"], ["--each", "2"], ["--list", "--points", "1"], ["--list", "--plot", "x"]):
            done = sweep(*self.WORDS, *words)
            self.assertEqual((done.returncode, done.stdout, len(errors(done))), (2, "", 1), done.stderr)


class Curves(unittest.TestCase):
    def drawn(self, *words: str) -> xml.etree.ElementTree.Element:
        with tempfile.TemporaryDirectory() as folder:
            path = os.path.join(folder, "curves.svg")
            done = sweep(*words, "--plot", path)
            self.assertEqual((done.returncode, errors(done)), (0, []))
            return xml.etree.ElementTree.parse(path).getroot()

    def texts(self, picture: xml.etree.ElementTree.Element) -> list[str]:
        return [list(text.itertext())[-1] for text in picture.iter(SVG + "text")]

    def test_a_curve_for_each_combination(self) -> None:
        texts = self.texts(self.drawn("algorithm=bcast,bcast-chain", "ranks=8", "size=1K..4Mx8", "segments=2,4"))
        for name in ("bcast", "bcast-chain, segments 2", "bcast-chain, segments 4", "1 KiB", "finish by size: ranks 8"):
            self.assertIn(name, texts)

    def test_too_many_are_refused_before_anything_runs(self) -> None:
        done = sweep("algorithm=bcast", "ranks=2..30+1", "size=1K,2K", "--x", "size", "--plot", "/no/such/picture", "--goal", "/no/such/program")
        self.assertEqual((done.returncode, done.stdout, done.stderr), (2, "", "sweep: 29 curves: a picture has at most 20, so give fewer values or another --x\n"))

    def test_the_step_to_rendezvous_is_marked(self) -> None:
        picture = self.drawn("algorithm=bcast", "ranks=8", "size=16K..256Kx2")
        fills = [circle.get("fill") for circle in picture.iter(SVG + "circle")][:5]
        self.assertEqual(([fill == "#ffffff" for fill in fills], self.texts(picture).count("filled: rendezvous")), ([True, True, False, False, False], 1))
        bars = [line for line in picture.iter(SVG + "line") if line.get("stroke-width") == "2" and line.get("x1") == line.get("x2")]
        self.assertEqual(len(bars), 1)

    def test_a_linear_axis(self) -> None:
        texts = self.texts(self.drawn(f"schedule={EXCHANGE}", "L=0..2000+500"))
        self.assertTrue({"0", "500", "1,000", "1,500", "2,000", "finish (µs)", "L (ns)"} <= set(texts), texts)

    def test_a_stuck_run_has_a_cross(self) -> None:
        hung = os.path.join(TOP, "examples", "both_send_first")
        self.assertEqual(self.texts(self.drawn(f"schedule={hung}", "S=50000..200000+50000")).count("both_send_first, S 50000: stuck"), 0)
        picture = self.drawn(f"schedule={hung}", "S=50000..200000+50000")
        self.assertIn("✕", ["".join(text.itertext())[-1] for text in picture.iter(SVG + "text")])

    def test_all_points_are_inside_the_picture(self) -> None:
        picture = self.drawn("algorithm=bcast,bcast-chain", "ranks=8", "size=1K..4Mx8", "segments=2,4")
        width, height = float(picture.attrib["width"]), float(picture.attrib["height"])
        for circle in picture.iter(SVG + "circle"):
            self.assertTrue(0 <= float(circle.attrib["cx"]) <= width and 0 <= float(circle.attrib["cy"]) <= height)


if __name__ == "__main__":
    unittest.main(verbosity=0)
