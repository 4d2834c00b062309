"""Calls of the program `goal`. Nothing of it is proved."""
from __future__ import annotations

import argparse
import hashlib
import os
import shutil
import subprocess
import sys
from dataclasses import dataclass
from functools import lru_cache
from typing import Sequence

from common.command import Fault

DONE, STUCK, REFUSED, NOT_CERTIFIED = 0, 1, 3, 6
# The number of digits of a version.
DIGITS = 12
TOP = os.path.dirname(os.path.dirname(os.path.dirname(os.path.abspath(__file__))))
BESIDE = os.path.join(TOP, "goal")
# This script finds out whether the program beside the tools is proved. An installation does not have it: `./install` has
# already run it.
ANSWER = os.path.join(TOP, "launch", "answer.py")


@dataclass(frozen=True)
class Answer:
    """How a call ended: its exit status, standard output, and standard error without trailing newlines."""

    status: int
    out: str
    err: str


def add_option(parser: argparse.ArgumentParser) -> None:
    """Adds the option that names the program."""
    parser.add_argument("--goal", metavar="PATH",
                        help="the program `goal` to run (default: $GOAL, else the one that belongs to these tools)")


def chosen(path: str | None = None) -> str:
    """The program: this path, or else $GOAL, or else the program that belongs to these tools. If that is proved, it is
    the proved program itself and not its launcher, which would check the sources at each call."""
    return path or os.environ.get("GOAL") or proved() or BESIDE


@lru_cache(maxsize=None)
def proved() -> str | None:
    """The path of the proved program of these tools, or None if it is not proved; looked up once. With GOAL_PROVED=1,
    it waits for the proof. An installed program is always proved."""
    found = BESIDE
    if os.path.exists(ANSWER):
        words = [sys.executable, "-B", ANSWER, "--where"]
        found = subprocess.run(words, stdout=subprocess.PIPE, check=False).stdout.decode("utf-8", "surrogateescape").rstrip("\n")
    if found:
        # (huge pages, for which the launcher also asks)
        os.environ.setdefault("GLIBC_TUNABLES", "glibc.malloc.hugetlb=1")
    return found or None


def call(program: str, words: Sequence[str], text: str | None = None) -> Answer:
    """Calls the program with these words. A given text is its standard input, which the words name as `/dev/stdin`."""
    try:
        done = subprocess.run([program, *words], input=text, capture_output=True, encoding="utf-8", errors="replace", check=False)
    except OSError as error:
        raise Fault(f"{program}: {error.strerror}") from error
    return Answer(done.returncode, done.stdout, done.stderr.rstrip("\n"))


def expect(answer: Answer, *statuses: int) -> Answer:
    """The answer, if it has one of these statuses. Otherwise raises a Fault with the message of the program."""
    if answer.status not in statuses:
        said = answer.err.splitlines()[-1] if answer.err else f"it ended with status {answer.status}"
        raise Fault(said if said.startswith("goal: ") else f"goal: {said}")
    return answer


@lru_cache(maxsize=None)
def version(path: str) -> str:
    """The version of a program: the first digits of the SHA-256 of its file or, if it is the launcher of a checkout, of
    the sources."""
    if os.path.exists(ANSWER) and os.path.realpath(path) == os.path.realpath(BESIDE):
        code = "import sys; sys.path.insert(0, sys.argv[1]); import sources; print(sources.digest())"
        words = [sys.executable, "-B", "-c", code, os.path.join(TOP, "launch")]
        return subprocess.run(words, stdout=subprocess.PIPE, check=False, encoding="utf-8").stdout[:DIGITS]
    found = os.path.realpath(shutil.which(path) or path)
    # (the launcher of an installation is the same for all programs)
    installed = os.path.join(os.path.dirname(found), os.pardir, "lib", "goal", "goal")
    try:
        with open(installed if os.path.exists(installed) else found, "rb") as file:
            return hashlib.sha256(file.read()).hexdigest()[:DIGITS]
    except OSError as error:
        raise Fault(f"{path}: {error.strerror}") from error
