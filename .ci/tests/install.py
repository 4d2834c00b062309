#!/usr/bin/env python3
"""Tests of ./install in a checkout with a fake proof: the checkout has the program that the other tests use, and a
record that it is proved from the sources there. An installation runs without the project. Its man pages and completions
have all options and tools."""
from __future__ import annotations

import os
import re
import shutil
import subprocess
import sys
import tempfile
import unittest
from typing import Any, Dict, List, Optional, Tuple

TOP = os.path.dirname(os.path.dirname(os.path.dirname(os.path.abspath(__file__))))
sys.path[:0] = [os.path.join(TOP, "tools"), os.path.join(TOP, "launch")]
import explain
from common import program
from common.limits import KINDS

GOAL = os.path.abspath(program.chosen())
PARTS = ("goal", "install", "installed", "launch", "tools", "docs", "examples", "README.md", "HANDLES")
TOOLS = [name for name in sorted(os.listdir(os.path.join(TOP, "tools"))) if os.access(os.path.join(TOP, "tools", name), os.X_OK)
         and os.path.isfile(os.path.join(TOP, "tools", name))]
# A PATH with neither the kit nor a checkout.
BARE = "/usr/bin:/bin"
# Writes the record that launch/sources.py keeps of a program in a checkout after a proof.
RECORD = """import sys; sys.path.insert(0, "launch"); import sources
sources.put(sources.RECORD, f"{sources.digest()}\\na kit\\n{sources.sum_of(sources.PROGRAM)}\\n")"""
Ended = Tuple[int, str, str]


def run(words: List[str], **how: Any) -> Ended:
    """The status, standard output and standard error of a command."""
    how.setdefault("env", {"PATH": BARE})
    done = subprocess.run(words, stdin=subprocess.DEVNULL, capture_output=True, text=True, check=False, **how)
    return done.returncode, done.stdout, done.stderr


def tree(folder: str) -> List[str]:
    """The paths below a folder, except compiled modules of Python."""
    found = (os.path.relpath(os.path.join(at, name), folder) for at, folders, names in os.walk(folder) for name in folders + names)
    return sorted(path for path in found if "__pycache__" not in path)


class Place(unittest.TestCase):
    """Makes a folder with a checkout, and a path for an installation."""

    def setUp(self) -> None:
        self.work = tempfile.mkdtemp(prefix="install ")
        self.addCleanup(shutil.rmtree, self.work)
        self.checkout, self.prefix = os.path.join(self.work, "checkout"), os.path.join(self.work, "where it goes")
        os.makedirs(self.checkout)
        for name in PARTS:
            source, target = os.path.join(TOP, name), os.path.join(self.checkout, name)
            if os.path.isdir(source):
                shutil.copytree(source, target, ignore=shutil.ignore_patterns("__pycache__"))
            else:
                shutil.copy2(source, target)
        self.source = os.path.join(self.checkout, "crates", "goal_prog", "src", "main.rt")
        self.program = os.path.join(self.checkout, "crates", "goal_prog", "out", "goal_prog")
        for path in (self.source, self.program):
            os.makedirs(os.path.dirname(path))
        self.write(os.path.join(self.checkout, "crates.txt"), "goal_prog:\n")
        self.write(self.source, "text\n")
        shutil.copy2(GOAL, self.program)
        self.record()

    @staticmethod
    def write(path: str, text: str) -> None:
        with open(path, "w", encoding="utf-8") as file:
            file.write(text)

    def record(self) -> None:
        """Records that the program is proved."""
        subprocess.run([sys.executable, "-B", "-c", RECORD], cwd=self.checkout, check=True)

    def install(self, *words: str, **env: str) -> Ended:
        return run([os.path.join(self.checkout, "install"), *words], env={"PATH": BARE, **env}, cwd=self.work)

    def installed(self, prefix: Optional[str] = None, **env: str) -> None:
        """Installs, and checks that this succeeds."""
        ended = self.install(prefix or self.prefix, **env)
        self.assertEqual((ended[0], ended[2]), (0, ""), ended)

    def call(self, name: str, *words: str, prefix: Optional[str] = None, **env: str) -> Ended:
        """Calls an installed command."""
        path = os.path.join(prefix or self.prefix, "bin")
        return run([name, *words], env={"PATH": f"{path}:{BARE}", **env}, cwd=self.work)

    def refused(self, ended: Ended, why: str) -> None:
        """Checks that the only output of a call is one line with the reason."""
        self.assertEqual((ended[0], ended[1], ended[2].count("\n")), (2, "", 1), ended)
        self.assertTrue(ended[2].startswith("install: ") and why in ended[2], ended)


class Installing(Place):
    def test_an_installation_runs_without_the_checkout(self) -> None:
        self.installed()
        shutil.rmtree(self.checkout)
        moved = os.path.join(self.work, "moved")
        os.rename(self.prefix, moved)
        self.prefix = moved
        self.assertEqual(sorted(os.listdir(os.path.join(moved, "bin"))), ["goal", *(f"goal-{name}" for name in TOOLS)])
        for name in TOOLS:
            with self.subTest(name):
                status, said, told = self.call(f"goal-{name}", "--help")
                self.assertEqual((status, told), (0, ""))
                self.assertTrue(said.startswith(f"usage: goal-{name} "), said)
                self.assertNotIn("tools/", said)
                self.assertNotIn("./goal ", said)
        exchange = os.path.join(moved, "share/doc/goal/examples/exchange")
        with open(exchange, encoding="utf-8") as file:
            self.assertIn("num_ranks 2", file.read())
        self.assertEqual(self.call("goal", "knots", exchange), (0, "ranks 2 ops 6 stuck 0 unread 0 finish 11408\n", ""))
        self.assertIn("11408", self.call("goal-path", exchange)[1])
        status, said, _ = self.call("goal-sweep", "algorithm=bcast,bcast-chain", "ranks=4", "size=8")
        self.assertEqual((status, said.count("\n")), (0, 3))
        self.write(os.path.join(self.work, "ring"), self.call("goal-schedule", "allreduce-ring", "4", "64")[1])
        status, said, told = self.call("goal-certify", "allreduce", "ring", "--segments")
        self.assertEqual((status, "not certified" in said, told), (0, False, ""))
        self.assertIn("certified", said)

    def test_a_link_to_the_launcher(self) -> None:
        self.installed()
        link = os.path.join(self.work, "link")
        os.symlink(os.path.join(self.prefix, "bin", "goal"), link)
        self.assertEqual(run([link, "gen", "barrier", "1", "0"])[0], 0)
        self.assertEqual(run(["sh", "goal", "gen", "barrier", "1", "0"], cwd=os.path.join(self.prefix, "bin"))[0], 0)

    def test_failures_are_explained_and_the_version_is_printed(self) -> None:
        self.installed()
        status, _, told = self.call("goal", "--version", GOAL_EXPLAIN="1")
        lines = told.splitlines()
        self.assertEqual((status, lines[1][:22]), (2, "goal: the sources are "))
        with open(os.path.join(self.prefix, "lib/goal/VERSION"), encoding="utf-8") as file:
            self.assertEqual([f"goal: {lines[1][6:]}", *lines[2:]], [f"goal: {line}" if not line.startswith(" ") else line for line in file.read().splitlines()])
        self.assertRegex(told, r"\n  sources sha256 [0-9a-f]{64}\n  proved by a kit\n  program sha256 [0-9a-f]{64}\n")
        self.assertIn("is it sim?", self.call("goal", "sin", GOAL_EXPLAIN="1")[2])
        cycle = os.path.join(self.prefix, "share/doc/goal/examples/cycle")
        self.assertRegex(self.call("goal", "show", cycle, GOAL_EXPLAIN="1")[2], r"cycle:\d+:\d+: ")
        self.assertEqual(self.call("goal", "sin")[2], "goal: the words are not a command line of goal\n")

    def test_a_copied_checkout_is_current_by_content(self) -> None:
        copy = os.path.join(self.work, "copy")
        # (with other times and inodes)
        shutil.copytree(self.checkout, copy, copy_function=shutil.copy)
        os.utime(os.path.join(copy, os.path.relpath(self.source, self.checkout)), (1, 1))
        shutil.rmtree(self.checkout)
        self.checkout = copy
        self.installed()
        self.assertEqual(self.call("goal", "gen", "barrier", "1", "0")[0], 0)

    def test_a_package_is_staged_in_destdir(self) -> None:
        room = os.path.join(self.work, "room")
        self.installed("/opt/goal", DESTDIR=room)
        self.assertEqual(self.call("goal", "gen", "barrier", "1", "0", prefix=f"{room}/opt/goal")[0], 0)
        self.assertEqual(self.install("--remove", "/opt/goal", DESTDIR=room)[0], 0)
        self.assertEqual(tree(room), ["opt"])

    def test_everyone_may_read_it(self) -> None:
        how: Dict[str, Any] = {"env": {"PATH": BARE}, "preexec_fn": lambda: os.umask(0o077)}
        self.assertEqual(run([os.path.join(self.checkout, "install"), self.prefix], **how)[0], 0)
        for path in tree(self.prefix):
            if not os.path.islink(os.path.join(self.prefix, path)):
                mode = os.stat(os.path.join(self.prefix, path)).st_mode & 0o777
                self.assertIn(mode, (0o644, 0o755), path)


class Removing(Place):
    def test_nothing_is_left(self) -> None:
        self.installed()
        self.call("goal-check", os.path.join(self.prefix, "share/doc/goal/examples/exchange"))
        self.assertEqual(self.install("--remove", self.prefix), (0, "", ""))
        self.assertFalse(os.path.exists(self.prefix))

    def test_files_of_a_killed_installation_are_removed(self) -> None:
        self.installed()
        os.remove(os.path.join(self.prefix, "bin", "goal"))
        for name in ("bin/goal", "lib/goal/manifest"):
            self.write(os.path.join(self.prefix, f"{name}.goal-new"), "half")
        self.assertEqual(self.install("--remove", self.prefix), (0, "", ""))
        self.assertFalse(os.path.exists(self.prefix))

    def test_other_files_stay(self) -> None:
        for name in ("bin/other", "share/man/man1/other.1", "lib/goal/own"):
            os.makedirs(os.path.dirname(os.path.join(self.prefix, name)), exist_ok=True)
            self.write(os.path.join(self.prefix, name), "")
        before = tree(self.prefix)
        self.installed()
        self.assertEqual(self.install("--remove", self.prefix), (0, "", ""))
        self.assertEqual(tree(self.prefix), before)

    def test_nothing_is_installed_there(self) -> None:
        self.refused(self.install("--remove", self.prefix), "nothing is installed at")
        os.makedirs(os.path.join(self.prefix, "lib/goal"))
        self.write(os.path.join(self.prefix, "lib/goal/manifest"), "../checkout/goal\n")
        self.refused(self.install("--remove", self.prefix), "is not a manifest")
        self.assertTrue(os.path.exists(os.path.join(self.checkout, "goal")))


class Again(Place):
    def test_a_newer_installation_replaces_an_older_one(self) -> None:
        self.write(os.path.join(self.checkout, "tools", "former"), "#!/bin/sh\n")
        os.chmod(os.path.join(self.checkout, "tools", "former"), 0o755)
        self.installed()
        os.remove(os.path.join(self.checkout, "tools", "former"))
        self.write(self.source, "other text\n")
        self.record()
        self.assertTrue(os.path.lexists(os.path.join(self.prefix, "bin", "goal-former")))
        self.installed()
        found = tree(self.prefix)
        self.assertEqual([path for path in found if "former" in path or path.endswith(".goal-new")], [])
        self.assertEqual(self.install("--remove", self.prefix), (0, "", ""))
        self.assertFalse(os.path.exists(self.prefix))

    def test_the_manifest_lists_all_files(self) -> None:
        self.installed()
        self.installed()
        with open(os.path.join(self.prefix, "lib/goal/manifest"), encoding="utf-8") as file:
            listed = [os.path.normpath(line) for line in file.read().splitlines()]
        self.assertEqual(sorted(listed), sorted([".", *tree(self.prefix)]))


class Refused(Place):
    def refused_cleanly(self, why: str, **env: str) -> None:
        """Checks that an installation is refused for this reason, and leaves nothing."""
        before = os.path.exists(self.prefix), tree(self.prefix)
        self.refused(self.install(self.prefix, **env), why)
        self.assertEqual((os.path.exists(self.prefix), tree(self.prefix)), before)

    def test_a_program_that_is_not_proved(self) -> None:
        self.write(self.source, "changed\n")
        self.refused_cleanly("no program is proved from the current sources: `rt ci` proves one")

    def test_a_program_that_was_replaced(self) -> None:
        with open(self.program, "ab") as file:
            file.write(b"x")
        self.refused_cleanly("no program is proved")

    def test_no_program(self) -> None:
        os.remove(self.program)
        self.refused_cleanly("no program is proved")

    def test_words(self) -> None:
        for words in ((), ("--remove",), ("a", "b"), ("a", "--remove"), ("--prefix",), ("",), ("--remove", "--remove", "a")):
            with self.subTest(words):
                self.refused(self.install(*words), "./install PREFIX")
        self.assertEqual(self.install("--help")[0], 0)

    def test_a_foreign_file(self) -> None:
        os.makedirs(os.path.join(self.prefix, "bin"))
        self.write(os.path.join(self.prefix, "bin", "goal"), "")
        self.refused_cleanly("bin/goal exists and is not part of an installation")

    def test_a_place_that_cannot_be_written(self) -> None:
        self.write(self.prefix, "")
        self.refused_cleanly("where it goes")
        os.remove(self.prefix)
        os.makedirs(self.prefix)
        self.write(os.path.join(self.prefix, "share"), "")
        self.refused_cleanly("share")

    @unittest.skipIf(os.geteuid() == 0 and not shutil.which("setpriv"), "root may write everywhere")
    def test_a_folder_of_others(self) -> None:
        os.makedirs(self.prefix)
        os.chmod(self.prefix, 0o555)
        os.chmod(self.work, 0o755)
        words = ["setpriv", "--reuid=65534", "--clear-groups"] if os.geteuid() == 0 else []
        self.refused(run([*words, os.path.join(self.checkout, "install"), self.prefix]), "Permission denied")
        self.assertEqual(os.listdir(self.prefix), [])

    def test_a_disk_that_is_full(self) -> None:
        limited = ["sh", "-c", 'trap "" XFSZ; ulimit -f 40; exec "$@"', "sh", os.path.join(self.checkout, "install"), self.prefix]
        self.refused(run(limited), "File too large")
        self.assertFalse(os.path.exists(self.prefix))
        self.installed()
        before = tree(self.prefix)
        self.refused(run(limited), "File too large")
        self.assertEqual(tree(self.prefix), before)
        self.assertEqual(self.install("--remove", self.prefix), (0, "", ""))
        self.assertFalse(os.path.exists(self.prefix))


class Completing(Place):
    def setUp(self) -> None:
        super().setUp()
        self.installed()

    def offered(self, line: str) -> List[str]:
        """The completions at the end of a line. In the line, `|` separates the words that bash would make."""
        words = line.split("|")
        file = os.path.join(self.prefix, "share/bash-completion/completions", words[0])
        script = 'source "$1"; shift; COMP_WORDS=("$@"); COMP_CWORD=$(($# - 1)); complete -p "$1" >&2; ' \
                 '"_goal${1:+$([ "$1" = goal ] || echo _tool)}" "$1" "${COMP_WORDS[COMP_CWORD]}"; printf "%s\\n" "${COMPREPLY[@]}"'
        path = os.path.join(self.prefix, "bin")
        status, said, told = run(["bash", "-c", script, "bash", file, *words], env={"PATH": f"{path}:{BARE}"})
        self.assertEqual((status, "-o default" in told, told.count("\n")), (0, True, 1), told)
        return said.split()

    def test_commands(self) -> None:
        self.assertEqual(self.offered("goal|"), list(explain.COMMANDS))
        self.assertEqual(self.offered("goal|c"), ["compile", "certify"])

    def test_plain_words_and_options_of_each_command(self) -> None:
        for command, (plain, options, _) in explain.COMMANDS.items():
            line = f"goal|{command}"
            for name in plain:
                with self.subTest(line):
                    self.assertEqual(self.offered(f"{line}|"), list(KINDS) if name == "KIND" else [])
                line += "|bcast" if name == "KIND" else "|x"
            self.assertEqual(self.offered(f"{line}|"), list(options), line)
            self.assertEqual(self.offered(f"goal|{command}|-"), [] if "--root" in options else list(options))

    def test_options(self) -> None:
        self.assertEqual(self.offered("goal|sim|--G"), ["--G", "--Gp"])
        self.assertEqual(self.offered("goal|sim|--G|5|x|--G"), ["--Gp"])
        for line in ("goal|sim|--G|", "goal|sim|--G|=|", "goal|sim|--G|=|5", "goal|gen|bcast|", "goal|nowhere|"):
            self.assertEqual(self.offered(line), [], line)
        self.assertEqual(self.offered("goal|sim|x|--G|=|5|--"), ["--L", "--o", "--g", "--Gp", "--O", "--Op", "--S"])
        self.assertEqual(self.offered("goal|gen|bcast|8|8|--"), ["--root"])
        self.assertEqual(self.offered("goal|gen|scan|8|8|--"), [])
        self.assertEqual(self.offered("goal|certify|re"), ["reduce", "reduce_scatter"])

    def test_tools(self) -> None:
        for name in TOOLS:
            with self.subTest(name):
                self.assertIn("--help", self.offered(f"goal-{name}|-"))
                self.assertEqual(self.offered(f"goal-{name}|x|y"), [])
        self.assertEqual(self.offered("goal-sweep|--j"), ["--jobs"])
        self.assertEqual(self.offered("goal-timeline|--o"), ["--out", "--o"])
        self.assertEqual(self.offered("goal-certify|al"), ["allgather", "allreduce", "alltoall"])
        self.assertEqual(self.offered("goal-schedule|bcast-b"), ["bcast-binary"])


class Manuals(unittest.TestCase):
    """The man pages have all commands, tools, options and limits, and the formatter reports no fault."""

    @staticmethod
    def shown(name: str) -> str:
        """A page as `man` shows it, with its lines joined; without `man`, its source."""
        path = os.path.join(TOP, "installed", name)
        if shutil.which("man"):
            ended = run(["man", "-l", path], env={"PATH": BARE, "MANWIDTH": "200", "LC_ALL": "C.UTF-8"})
            if ended[0] == 0 and ended[1]:
                return re.sub(r"\s+", " ", re.sub(".\b", "", ended[1]))
        with open(path, encoding="utf-8") as file:
            return file.read()

    def test_commands_and_limits(self) -> None:
        page = self.shown("goal.1")
        for command, (plain, options, _) in explain.COMMANDS.items():
            self.assertIn(f"goal {command} {' '.join(plain)}", page)
            for option in options:
                self.assertIn(option, page)
        for word in (*KINDS, "2^40-1", "2^20-1", "999", "65536", "300000", "134217728"):
            self.assertIn(word, page)

    def test_tools_and_their_options(self) -> None:
        with open(os.path.join(TOP, "installed", "goal-tools.7"), encoding="utf-8") as file:
            text = file.read()
        parts = re.split(r"(?m)^\.It Xo\n\.Nm goal-(\S+)\n", text.partition("\n.Sh EXIT STATUS\n")[0])
        sections = dict(zip(parts[1::2], parts[2::2]))
        self.assertEqual(sorted(sections), TOOLS)
        missing = []
        for name, section in sections.items():
            self.assertIn(f".Nm goal-{name}", parts[0])
            said = run([os.path.join(TOP, "tools", name), "--help"])[1]
            options = {word for line in re.findall(r"(?m)^  (-.*?)(?:  |$)", said) for word in re.findall(r"(?<!\S)--?[A-Za-z][A-Za-z-]*", line)}
            # (in this format an option is written without its first dash)
            given = {f"-{word}" for word in re.findall(r"(?<=\s)-?[A-Za-z][A-Za-z-]*", section)}
            missing += [f"goal-{name} {option}" for option in sorted(options - {"-h", "--help"} - given)]
        self.assertEqual(missing, [])

    @unittest.skipUnless(shutil.which("man") and shutil.which("groff"), "there is no man")
    def test_the_formatter_finds_nothing_wrong(self) -> None:
        for name in ("goal.1", "goal-tools.7"):
            env = {"PATH": BARE, "LC_ALL": "C.UTF-8", "MANROFFSEQ": "", "MANWIDTH": "80"}
            ended = run(["man", "--warnings=all,mac", "-l", os.path.join(TOP, "installed", name)], env=env)
            self.assertEqual((ended[0], ended[2]), (0, ""), name)


if __name__ == "__main__":
    unittest.main(verbosity=0)
