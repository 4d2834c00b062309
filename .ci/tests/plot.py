#!/usr/bin/env python3
"""Tests of tools/plot: its pictures show what the tables have."""
from __future__ import annotations

import os
import subprocess
import sys
import tempfile
import unittest
import xml.etree.ElementTree

TOP = os.path.dirname(os.path.dirname(os.path.dirname(os.path.abspath(__file__))))
sys.path.insert(0, os.path.join(TOP, ".ci"))
import tool_calls

SVG = "{http://www.w3.org/2000/svg}"
TABLE = "name,S,finish,stuck,protocol\na,1024,10,0,eager\na,65536,20,0,rendezvous\nb,1024,30,0,eager\nb,65536,30,0,eager\n"
OTHER = "name,more,S,finish,stuck,protocol\nc,1,1024,10,0,eager\nc,1,65536,20,0,eager\nc,1,2048,,,\nb,,4096,5,2,eager\n"


def plot(*words: str, text: str = "") -> subprocess.CompletedProcess[str]:
    return tool_calls.called("plot", *words, given=text)


class Pictures(unittest.TestCase):
    def setUp(self) -> None:
        folder = tempfile.TemporaryDirectory()
        self.addCleanup(folder.cleanup)
        self.paths = [os.path.join(folder.name, name) for name in ("one", "other")]
        for path, text in zip(self.paths, (TABLE, OTHER)):
            with open(path, "w", encoding="utf-8") as file:
                file.write(text)

    def texts(self, *words: str) -> list[str]:
        done = plot(*self.paths, "--x", "S", *words)
        self.assertEqual((done.returncode, done.stderr), (0, ""))
        return ["".join(text.itertext()) for text in xml.etree.ElementTree.fromstring(done.stdout).iter(SVG + "text")]

    def test_tables_are_merged_and_marked(self) -> None:
        texts = self.texts("--by", "name")
        self.assertTrue({"name a", "name b", "name c (same as name a)", "filled: rendezvous", "stuck", "refused"} <= set(texts), texts)
        self.assertTrue({"name c: refused at 2,048✕", "name b: stuck at 4,096✕", "1 KiB", "64 KiB", "4 KiB"} <= set(texts), texts)

    def test_labels_and_a_ratio(self) -> None:
        texts = self.texts("--by", "name", "--labels", "A,B,C", "--ratio", "A", "--title", "T")
        self.assertTrue({"A", "B", "C (same as A)", "T", "finish, that of A is 1"} <= set(texts), texts)

    def test_faults_are_one_line(self) -> None:
        for words, why in ((["--by", "more"], "two rows of the curve"), (["--by", "name", "--labels", "A"], "1 labels for 3 curves"),
                           (["--by", "name", "--ratio", "x"], "--ratio x is not the name of a curve"), (["--y", "none"], "there is no column none"),
                           (["--y", "protocol", "--by", "name"], "protocol: eager is not a number"), (["-o", "/no/such/picture"], "/no/such/picture: No such file")):
            done = plot(*self.paths, "--x", "S", *words)
            self.assertEqual((done.returncode, done.stdout, done.stderr.count("\n")), (2, "", 1), done.stderr)
            self.assertIn(why, done.stderr)

    def test_a_row_that_comes_twice_is_taken_once(self) -> None:
        done = plot("-", self.paths[0], "--x", "S", text=TABLE)
        self.assertEqual((done.returncode, done.stderr), (0, ""))


if __name__ == "__main__":
    unittest.main(verbosity=0)
