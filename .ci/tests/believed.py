#!/usr/bin/env python3
"""Tests of .ci/believed: which names it reaches, and that it reports wrong tables, groups and names."""
from __future__ import annotations

import contextlib
import functools
import io
import os
import shutil
import tempfile
import types
import unittest
from typing import Any

TOP = os.path.dirname(os.path.dirname(os.path.dirname(os.path.abspath(__file__))))
# A cache of results of reading files, by the contents of the files.
READ: dict[str, Any] = {}


class Believed(unittest.TestCase):
    top = ""

    @classmethod
    def setUpClass(cls) -> None:
        """Makes a copy of the files that the tests read or change, and links to all others."""
        cls.top = tempfile.mkdtemp()
        cls.addClassCleanup(shutil.rmtree, cls.top)
        linked = ("proofs", "must-fail")
        shutil.copytree(f"{TOP}/crates", f"{cls.top}/crates", ignore=shutil.ignore_patterns("out", "data", *linked))
        for crate in os.listdir(f"{TOP}/crates"):
            for folder in linked:
                if os.path.exists(f"{TOP}/crates/{crate}/{folder}"):
                    os.symlink(f"{TOP}/crates/{crate}/{folder}", f"{cls.top}/crates/{crate}/{folder}")
        shutil.copytree(f"{TOP}/docs", f"{cls.top}/docs")
        os.makedirs(f"{cls.top}/.ci")
        for folder in ("", ".ci/"):
            for name in os.listdir(f"{TOP}/{folder}"):
                if name not in (".git", "believed") and not os.path.exists(f"{cls.top}/{folder}{name}"):
                    os.symlink(f"{TOP}/{folder}{name}", f"{cls.top}/{folder}{name}")
        shutil.copy(f"{TOP}/.ci/believed", f"{cls.top}/.ci")

    def called(self, *words: str) -> tuple[int, str]:
        """The status and the output of .ci/believed with these words. It runs in this process, so that results are
        cached."""
        path, last = f"{self.top}/.ci/believed", "\nsys.exit(main(sys.argv[1:]))\n"
        with open(path) as it:
            source = it.read()
        self.assertTrue(source.endswith(last))
        module = types.ModuleType("believed")
        module.__file__ = path
        exec(compile(source[:-len(last)], path, "exec"), module.__dict__)
        READ.setdefault("File", module.__dict__["File"])
        READ.setdefault("calls_in", functools.lru_cache(maxsize=None)(module.__dict__["calls_in"]))
        module.__dict__.update(File=self.file, calls_in=READ["calls_in"])
        with contextlib.redirect_stdout(io.StringIO()) as said:
            status = module.__dict__["main"]([*words])
        return status, said.getvalue()

    def file(self, crate: str, name: str) -> Any:
        """The contents of a file of specs/ as .ci/believed reads them, cached by the text of the file."""
        with open(f"{self.top}/crates/{crate}/specs/{name}.antt") as it:
            key = f"{crate}/{name} {it.read()}"
        if key not in READ:
            READ[key] = READ["File"](crate, name)
        return READ[key]

    def kept(self, path: str) -> str:
        """The text of a file. The file gets it back after the test."""
        with open(f"{self.top}/{path}") as it:
            text = it.read()
        self.addCleanup(self.write, path, text)
        return text

    def write(self, path: str, text: str) -> None:
        with open(f"{self.top}/{path}", "w") as it:
            it.write(text)

    def change(self, path: str, old: str, new: str) -> None:
        text = self.kept(path)
        self.assertEqual(text.count(old), 1, old)
        self.write(path, text.replace(old, new))

    def write_table(self) -> None:
        self.kept("docs/PROVED.md")
        self.called("--write")

    def test_names_are_followed_rather_than_files(self) -> None:
        reached = dict(line.split(": ") for line in self.called("--list")[1].splitlines())
        self.assertEqual(reached["goal_graph/Order"].split(), ["IsBefore", "IsLess", "key"])
        self.assertNotIn("goal_graph/Laws", reached)
        self.assertIn("IsCompleteRun", reached["sim_params/Run"].split())
        self.assertNotIn("goal_parser/Laws", reached)

    def test_a_stale_table_is_reported_and_rewritten(self) -> None:
        self.assertEqual(self.called()[0], 0)
        self.change("docs/PROVED.md", "| goal_print | the canonical text | ", "| goal_print | the canonical text | Page 1, ")
        status, said = self.called()
        self.assertEqual(status, 1)
        self.assertIn("docs/PROVED.md", said)
        self.write_table()
        self.assertEqual(self.called()[0], 0)

    def test_a_file_in_the_wrong_group_is_reported(self) -> None:
        self.change("crates/sim_stuck/specs/Lib.antt", "pub mod StuckText\n-- What only the code keeps.\n", "-- What only the code keeps.\npub mod StuckText\n")
        status, said = self.called()
        self.assertEqual(status, 1)
        self.assertIn("crates/sim_stuck/specs/Lib.antt: StuckText is believed, and not in the first group", said)

    def test_a_law_in_a_file_of_the_first_group_is_reported(self) -> None:
        rule = "abbrev pub IsLess : List ℕ → List ℕ → Type 0\n"
        law = "abbrev pub NoneIsLess : Type 0\nNoneIsLess = (k : List ℕ) → ¬ (IsLess k k)\n\n"
        self.change("crates/goal_graph/specs/Order.antt", rule, law + rule)
        self.write_table()
        status, said = self.called()
        self.assertEqual(status, 1)
        self.assertIn("crates/goal_graph/specs/Order.antt: NoneIsLess is in the first group, and the top call does not reach it", said)

    def test_a_needless_entry_of_by_itself_is_reported(self) -> None:
        self.change(".ci/believed", '    "goal_blocks/Right": ', '    "goal_blocks/Walk": "all of it is reached",\n    "goal_blocks/Right": ')
        status, said = self.called()
        self.assertEqual(status, 1)
        self.assertIn(".ci/believed: BY_ITSELF lists goal_blocks/Walk, which is not needed", said)

    def test_a_definition_that_cites_a_constant_of_code_is_reported(self) -> None:
        path = "crates/goal_graph/specs/Order.antt"
        self.change(path, "key a = a.time", "key a = MOST_TIME")
        use = "use Rattle.goal_graph.specs.declared.plan.TheConstants.{MOST_TIME}\n\n"
        self.change(path, "abbrev pub IsLess : ", use + "abbrev pub IsLess : ")
        self.write_table()
        status, said = self.called()
        self.assertEqual(status, 1)
        self.assertIn(f"{path}: key cites MOST_TIME of src/ (goal_graph/plan)", said)
        self.assertIn("of src/: MOST_TIME of goal_graph/plan, cited by key of goal_graph/Order", self.called("--list")[1])
        with open(f"{self.top}/docs/PROVED.md") as it:
            self.assertIn("`MOST_TIME`", it.read())

    def test_a_needless_exception_for_code_is_reported(self) -> None:
        begin = "OF_CODE: dict[str, str] = {"
        self.change(".ci/believed", begin, begin + '\n    "goal_graph/plan": "no reason",\n')
        self.assertIn(".ci/believed: OF_CODE lists goal_graph/plan, which is not needed", self.called()[1])

    def test_a_name_that_is_not_in_the_sources_is_reported(self) -> None:
        self.change("docs/PROVED.md", "`HaveReturned`", "`HaveGone`")
        status, said = self.called()
        self.assertEqual(status, 1)
        self.assertRegex(said, r"docs/PROVED.md:\d+: `HaveGone` is not in the sources")

    def test_a_name_that_is_only_in_a_comment_is_reported(self) -> None:
        self.change("docs/PROVED.md", "`HaveReturned`", "`HaveGone`")
        self.change("crates/goal_graph/specs/Order.antt", "abbrev pub IsLess : ", "-- HaveGone\nabbrev pub IsLess : ")
        self.assertIn("`HaveGone` is not in the sources", self.called()[1])

    def test_a_row_whose_call_or_clause_does_not_exist_is_reported(self) -> None:
        self.change("crates/sim_match/src/laws.rt", "pub fn laws_of_posts_and_arrivals", "pub fn laws_of_posts")
        self.change("crates/goal_words/src/laws.rt", "ensures options_join {", "ensures options_joined {")
        said = self.called()[1]
        self.assertIn("there is no call `laws_of_posts_and_arrivals` in sim_match, sim_resources", said)
        self.assertIn("`laws_of_lines` has no clause `options_join`", said)

    def test_a_row_apart_from_its_table_is_reported(self) -> None:
        self.change("docs/PROVED.md", "\n| `Request::of` |", "\n\n| `Request::of` |")
        self.assertRegex(self.called()[1], r"docs/PROVED.md:\d+: this row has no table")

    def test_a_row_for_unnamed_clauses_is_reported_if_all_have_names(self) -> None:
        self.change("docs/PROVED.md", "| `Request::of` | `request`, `priced` |", "| `Request::of` | — |")
        self.assertIn("`Request::of` has no clause without a name", self.called()[1])

    def test_a_mutant_whose_clause_does_not_exist_is_reported(self) -> None:
        self.change("docs/PROVED.md", "| `said` of `say` |", "| `read` of `say` |")
        self.assertIn("`say` has no clause `read`", self.called()[1])

    def test_a_clause_of_a_trait_counts_for_its_implementations(self) -> None:
        self.change("docs/PROVED.md", "| `EventOrder::before` |", "| `EventKey::before` |")
        self.assertEqual(self.called()[0], 0)


if __name__ == "__main__":
    unittest.main()
