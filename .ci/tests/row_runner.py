#!/usr/bin/env python3
"""Tests of .ci/rows and .ci/mutants with a fake program: which rows pass, how failures are shown, and how rows are
read."""
from __future__ import annotations

import os
import re
import shutil
import subprocess
import tempfile
import unittest

TOP = os.path.dirname(os.path.dirname(os.path.dirname(os.path.abspath(__file__))))

# The fake program. It prints its words, a file, or the input that its first reads get; it refuses; or it does not end.
STAND_IN = """#!/bin/sh
case $1 in
say) shift; echo "$@" ;;
read) cat "$2" ;;
reads) dd bs=100 count="$2" 2>/dev/null; cat >/dev/null ;;
refuse) echo "goal: refused" >&2; exit 3 ;;
hang) exec sleep 60 ;;
esac
"""
PASSES = "row good\n$ say 5\n> 5\n\n"
FAILS = "row bad\nfile text: a b\n$ read text\n> a c\n\n"


class Runners(unittest.TestCase):
    """Makes a folder with copies of both scripts. A test writes the only file of rows there."""

    def setUp(self) -> None:
        folder = tempfile.TemporaryDirectory()
        self.addCleanup(folder.cleanup)
        self.top = folder.name
        os.makedirs(f"{self.top}/.ci/cases")
        for name in ("rows", "mutants", "program", "cases/row_files.py"):
            shutil.copy(f"{TOP}/.ci/{name}", f"{self.top}/.ci/{name}")
        self.write("goal", STAND_IN)
        os.chmod(f"{self.top}/goal", 0o755)

    def write(self, name: str, text: str) -> None:
        with open(f"{self.top}/{name}", "w", encoding="utf-8") as file:
            file.write(text)

    def ran(self, program: str, rows: str, *words: str) -> tuple[int, str, str]:
        """The status, output and standard error of .ci/rows or .ci/mutants with these rows."""
        self.write(".ci/cases/some.rows", rows)
        env = {**os.environ, "GOAL": f"{self.top}/goal"}
        done = subprocess.run([f"{self.top}/.ci/{program}", *words], env=env, stdin=subprocess.DEVNULL, capture_output=True, text=True, check=False)
        return done.returncode, done.stdout, done.stderr


class Rows(Runners):
    def test_a_row_passes(self) -> None:
        self.assertEqual(self.ran("rows", PASSES), (0, "row good: ok\n1 passed, 0 failed\n", ""))
        refused = "row refused\n$ refuse\nstatus 3\n! goal: refused\n"
        self.assertEqual(self.ran("rows", refused, "--quiet"), (0, "1 passed, 0 failed\n", ""))

    def test_a_failure_is_shown_as_a_diff(self) -> None:
        status, out, err = self.ran("rows", PASSES + FAILS)
        self.assertEqual((status, err), (1, ""))
        self.assertEqual(out.splitlines(), ["row good: ok", "row bad (some.rows:5): failed", "  --- output wanted", "  +++ output found", "  @@ -1 +1 @@",
                                            "  -a c", "  +a b", "1 passed, 1 failed"])

    def test_each_part_of_an_answer_is_compared(self) -> None:
        cases = (("$ refuse\n! goal: refused\n", "  status 3, wanted 0"), ("$ refuse\nstatus 3\n", "  +goal: refused"), ("$ say 5\n", "  +5"),
                 ("$ say 5\n> ...\n> 6\n", "  -6"), ("$ say 5\nprints: echo 6\n", "  -6"), ("$ say 5\nchecked: grep 6\n", "  `grep 6` ends with status 1"),
                 ("bytes a: 01 02\n$ say 5\n> 5\nwrote a: 01\n", "  a has 01 02, wanted 01"), ("$ say 5\n> 5\nwrote a: 01\n", "  a has none, wanted 01"),
                 ("do: false\n$ say 5\n> 5\n", "  `false` ends with status 1: "), ("seconds 0.2\n$ hang\n", "  status not ended after 0.2 s, wanted 0"),
                 ("stdin: echo 7\npieces\n$ read /dev/stdin\n> 6\n", "  with the input whole:"))
        _, out, _ = self.ran("rows", "".join(f"row {number}\n{row}\n" for number, (row, _) in enumerate(cases)))
        failures = re.split(r"^row \d+ .*: failed\n", out, flags=re.MULTILINE)[1:]
        self.assertEqual((len(failures), out.splitlines()[-1]), (len(cases), f"0 passed, {len(cases)} failed"))
        for (row, fault), failure in zip(cases, failures):
            self.assertIn(fault, failure.splitlines(), row)

    def test_pieces_of_the_input_come_one_by_one(self) -> None:
        for reads, fault in ((1, "cut at 1"), (2, "by single bytes")):
            _, out, _ = self.ran("rows", f"row pieces\nstdin: echo 76\npieces\n$ reads {reads}\n> 76\n")
            self.assertEqual(out.splitlines()[1], f"  with the input {fault}:")

    def test_the_files_of_a_failure_are_kept(self) -> None:
        kept = f"{self.top}/kept"
        self.ran("rows", PASSES + FAILS, "--keep", kept)
        self.assertEqual(os.listdir(kept), ["bad"])
        with open(f"{kept}/bad/text", encoding="utf-8") as file:
            self.assertEqual(file.read(), "a b")

    def test_a_name_chooses_rows(self) -> None:
        self.assertEqual(self.ran("rows", PASSES + FAILS, "goo")[:2], (0, "row good: ok\n1 passed, 0 failed\n"))
        self.assertEqual(self.ran("rows", PASSES + FAILS, "--list", "some")[:2], (0, "good\nbad\n"))
        self.assertEqual(self.ran("rows", PASSES, "other"), (2, "", "rows: no row or file of rows has the name other: .ci/rows --list has all\n"))

    def test_a_template_makes_rows(self) -> None:
        rows = "row {letter}{number}\nwith letter=a number=1..3\nwith letter='b c' number=7\n$ say {letter}-{number}\n> {letter}-{number}\n"
        self.assertEqual(self.ran("rows", rows, "--list")[:2], (0, "a1\na2\na3\nb c7\n"))
        self.assertEqual(self.ran("rows", rows, "--quiet"), (0, "4 passed, 0 failed\n", ""))

    def test_a_file_before_the_rows_is_shared(self) -> None:
        rows = "file one: 1\nmake two: cat one one\n\nrow first\n$ read one\nprints: printf 1\n\nrow second\n$ read two\nprints: printf 11\n"
        self.assertEqual(self.ran("rows", rows, "--quiet"), (0, "2 passed, 0 failed\n", ""))

    def test_a_faulty_file_of_rows_ends_with_2(self) -> None:
        for rows, fault in ((PASSES + PASSES, "several rows have the same name, good: rename one"), ("row {n}\nwith n=1\nwith n=1\n$ say\n", "several rows have the same name, 1: rename one"),
                            (PASSES + "say 6\n", "some.rows:1: this is not a line of a row: say 6"), ("row bad\n> 5\n", "some.rows:1: the row has no call: add a line that begins with $"),
                            ("$ say 5\n", "some.rows:1: before the first row there can only be file, bytes, make")):
            self.assertEqual(self.ran("rows", rows), (2, "", f"rows: {fault}\n"))
        self.assertEqual(self.ran("mutants", PASSES, "other"), (2, "", "mutants: no row or file of rows has the name other: .ci/rows --list has all\n"))


class Mutants(Runners):
    def test_a_strict_row_notices_all(self) -> None:
        status, out, err = self.ran("mutants", PASSES)
        self.assertEqual((status, err), (0, ""))
        self.assertRegex(out, r"^[1-9]\d* passed, 0 failed\n$")

    def test_a_loose_row_is_named(self) -> None:
        status, out, _ = self.ran("mutants", PASSES + "row loose\n$ say 5\nchecked: true\n")
        self.assertEqual((status, out.splitlines()[0]), (1, "row loose (some.rows:5): does not notice no output"))
        self.assertRegex(out.splitlines()[1], r"^[1-9]\d* passed, 1 failed$")

    def test_a_row_that_fails_without_mutation_is_named(self) -> None:
        status, out, _ = self.ran("mutants", FAILS)
        self.assertEqual((status, out.splitlines()[0]), (1, "row bad (some.rows:1): failed, with nothing spoilt"))
        self.assertEqual(out.splitlines()[-1], "0 passed, 1 failed")

    def test_a_row_that_can_not_be_prepared_is_named(self) -> None:
        made = "row unmade\ndo: false\n$ say 5\n"
        self.assertEqual(self.ran("mutants", made)[:2], (1, "row unmade (some.rows:1): failed, with nothing spoilt\n  `false` ends with status 1: \n0 passed, 1 failed\n"))
        _, out, _ = self.ran("mutants", "row loose\n$ say 5\nchecked: true\n\n" + made)
        self.assertEqual([line.split(" (")[0] for line in out.splitlines() if line.startswith("row ")], ["row loose", "row unmade"])


if __name__ == "__main__":
    unittest.main(verbosity=0)
