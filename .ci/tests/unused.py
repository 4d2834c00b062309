#!/usr/bin/env python3
"""Tests of .ci/unused on a small repository: what counts as used, what is reported, and the list of exceptions."""
from __future__ import annotations

import os
import re
import subprocess
import tempfile
import unittest

TOP = os.path.dirname(os.path.dirname(os.path.dirname(os.path.abspath(__file__))))

FILES = {
    "crates.txt": "# NAME: DEP DEP ..\nlow:\ngoal_prog: low\n",
    "crates/low/src/lib.rt": """//! A library.
#![tactic(auto)]
ghost use Rattle.std.specs.Prelude.{◌≡◌};
ghost use Rattle.low.specs.Twice.{twice};

/// A counter.
pub struct Counter {
    count: u32,
}

impl Counter {
    pub fn raise(&mut self) {
        self.count = twice(self.count);
    }
}

#[tactic(auto, using(crate::proofs::Lemmas::by_attribute))]
pub fn twice(n: u32) -> u32
    requires { n < 100 }
    ensures { result ≡ twice n }
{
    n + n
}

pub fn laws_of_twice()
    ensures { Law }
{}

#[test]
fn a_test() {
    for_a_test();
}

fn for_a_test() {
}
""",
    "crates/low/specs/Lib.antt": "-- What a reader must believe.\npub mod Twice\n",
    "crates/low/specs/Twice.antt": """-- Twice a number.
use Rattle.std.specs.Prelude.{ℕ, ◌+◌}

abbrev pub twice : ℕ → ℕ
twice n = n + n
""",
    "crates/low/proofs/Lib.antt": "pub mod Lemmas\npub mod ForCallers\n",
    "crates/low/proofs/ForCallers.antt": "pub use Rattle.low.proofs.Lemmas.{passed_on}\n",
    "crates/low/proofs/Lemmas.antt": """-- Lemmas.
pub by_attribute : ℕ
by_attribute = 0

module _ (n : ℕ) where
  -- helps
  helper : ℕ
  helper = n

  pub by_answer : ℕ
  by_answer = helper

pub passed_on : ℕ
passed_on = 0
""",
    "crates/low/proofs/twice/Answers.antt": """use Rattle.low.proofs.Lemmas.{by_answer}
use Rattle.low.proofs.twice.Goals as goal

pub returns : goal.returns
returns c = by_answer 0
""",
    "crates/goal_prog/src/main.rt": """#![tactic(auto)]
ghost use Rattle.low.proofs.ForCallers.{passed_on};

fn main(rt: HostRuntime) -> u8
    ensures { passed_on }
{
    let mut counter = start();
    counter.raise();
    0
}

fn start() -> Counter {
    Counter { count: 0 }
}
""",
}


class Unused(unittest.TestCase):
    def setUp(self) -> None:
        folder = tempfile.TemporaryDirectory()
        self.addCleanup(folder.cleanup)
        self.top = folder.name
        for path, text in FILES.items():
            self.write(path, text)
        self.keep("")

    def write(self, path: str, text: str) -> None:
        os.makedirs(os.path.dirname(f"{self.top}/{path}"), exist_ok=True)
        with open(f"{self.top}/{path}", "w", encoding="utf-8") as it:
            it.write(text)

    def keep(self, kept: str) -> None:
        """Makes a copy of the script with this list of exceptions."""
        with open(f"{TOP}/.ci/unused", encoding="utf-8") as it:
            text = it.read()
        text, count = re.subn(r"\nKEPT: (.*?) = \(.*?\)\n", rf"\nKEPT: \1 = ({kept})\n", text, flags=re.S)
        self.assertEqual(count, 1)
        self.write(".ci/unused", text)

    def change(self, path: str, old: str, new: str) -> None:
        self.assertEqual(FILES[path].count(old), 1, old)
        self.write(path, FILES[path].replace(old, new))

    def called(self) -> tuple[int, list[str]]:
        answer = subprocess.run(["python3", f"{self.top}/.ci/unused"], capture_output=True, text=True, check=False)
        return answer.returncode, answer.stdout.splitlines()[:-1]

    def test_all_is_used(self) -> None:
        """By main, a test, a law, an attribute or an answer, or through a file that passes a lemma on."""
        self.assertEqual(self.called(), (0, []))

    def test_a_function_that_nothing_calls(self) -> None:
        self.change("crates/goal_prog/src/main.rt", "    counter.raise();\n", "")
        self.assertIn("crates/low/src/lib.rt: Counter::raise, line 12: nothing uses it", self.called()[1])

    def test_a_field_is_no_call(self) -> None:
        self.change("crates/goal_prog/src/main.rt", "counter.raise();", "counter.raise;")
        self.assertIn("crates/low/src/lib.rt: Counter::raise, line 12: nothing uses it", self.called()[1])

    def test_a_definition_that_nothing_cites(self) -> None:
        path = "crates/low/specs/Twice.antt"
        self.write(path, FILES[path] + "\nabbrev pub thrice : ℕ → ℕ\nthrice n = twice n + n\n")
        self.assertEqual(self.called(), (1, ["crates/low/specs/Twice.antt: thrice, line 7: nothing uses it"]))

    def test_a_lemma_and_a_helper_that_only_it_cites(self) -> None:
        self.change("crates/low/proofs/twice/Answers.antt", "by_answer 0", "0")
        lemmas = [line.partition(",")[0] for line in self.called()[1]]
        self.assertEqual(lemmas, [f"crates/low/proofs/Lemmas.antt: {name}" for name in ("by_answer", "helper")])

    def test_a_lemma_that_is_only_passed_on(self) -> None:
        self.change("crates/goal_prog/src/main.rt", "    ensures { passed_on }\n", "")
        self.assertEqual(self.called(), (1, ["crates/low/proofs/Lemmas.antt: passed_on, line 13: nothing uses it"]))

    def test_an_exception_is_not_reported(self) -> None:
        self.change("crates/low/proofs/twice/Answers.antt", "by_answer 0", "0")
        self.keep('("low/proofs/Lemmas.antt", "by_answer helper", "a reason"),')
        self.assertEqual(self.called(), (0, []))

    def test_a_needless_exception_is_reported(self) -> None:
        self.keep('("low/proofs/Lemmas.antt", "helper gone", "a reason"),')
        told = [f".ci/unused: KEPT lists low/proofs/Lemmas.antt: {name}, which is not needed" for name in ("gone", "helper")]
        self.assertEqual(self.called(), (1, told))


if __name__ == "__main__":
    unittest.main()
