"""Answers command lines of `goal` when the program is not known to be up to date.

- If the program was proved from sources with the current contents, the program answers.
- Otherwise a proof runs or starts in the background (prove.py), one per checkout. Until it ends, `rt try` answers from
  the sources.
- If that gives no answer, or if GOAL_PROVED=1 is set, the call waits for the proved program.

Exit status 9: there is no proof. Nothing of this is proved."""
from __future__ import annotations

import fcntl
import os
import re
import shutil
import signal
import subprocess
import sys
import tempfile
import time
from typing import IO, Any

import sources
from sources import BEGUN, PROGRAM, PROOF, TOP, text_of
from trial import Trial, say

# The process that runs the proof holds the lock.
LOCK, LOG = f"{PROOF}/lock", f"{PROOF}/log"
# The digest of sources whose proof failed, the kit, and why it failed.
FAILED = f"{PROOF}/failed"
NO_PROOF, NO_TEXT = 9, 8
SIGNALS = (signal.SIGTERM, signal.SIGHUP, signal.SIGINT)
LOOK_SECONDS = 0.1
# The lines of the log that report progress.
PROGRESS = re.compile(r"(?m)^goal: (\d+ of \d+ crates proved after .*)$")
TO_PROVE = re.compile(r"(?m)^goal: (\d+) crates to prove$")


def held(path: str) -> IO[str] | None:
    """Opens and locks a file. None if another process holds the lock."""
    file = open(path, "a", encoding="utf-8")
    try:
        fcntl.flock(file, fcntl.LOCK_EX | fcntl.LOCK_NB)
        return file
    except BlockingIOError:
        file.close()
        return None


class Proof:
    """The proof of this checkout, as this call sees it. `is_tried_again`: a proof that failed is started again.

    `is_begun` says whether this call started it, and `reported` how many lines of progress this call has printed."""

    def __init__(self, is_tried_again: bool) -> None:
        self.is_tried_again, self.is_begun, self.reported = is_tried_again, False, 0

    def is_done(self) -> bool:
        """Whether the program is proved. Starts a proof if none runs; ends this process if the proof failed."""
        # (this call takes the lock first, so that no proof can end between the checks below)
        lock = held(LOCK)
        if not lock:
            return False
        if sources.is_current():
            return True
        failed = text_of(FAILED)
        is_over = self.is_begun or not self.is_tried_again
        if failed and is_over and sources.is_of(failed):
            say(f"not proved: {failed.split(chr(10), 2)[2]}. See {LOG}; GOAL_PROVED=1 tries it again")
            sys.exit(NO_PROOF)
        if self.is_begun and not failed and sources.is_as_begun():
            say(f"the proof was stopped, and the next call continues it (log: {LOG})")
            sys.exit(NO_PROOF)
        if not self.is_begun and sources.is_left():
            if is_taken_from_gate():
                return sources.is_current()
            say("rt ci left no record of which sources its program is from, so they are proved again")
        self.begin(lock)
        return False

    def begin(self, lock: IO[str]) -> None:
        """Starts the proof, which then holds the lock."""
        self.is_begun, self.reported = True, 0
        if os.path.exists(FAILED):
            os.remove(FAILED)
        sources.begin()
        words = [sys.executable, "-B", f"{TOP}/launch/prove.py", f"{lock.fileno()}"]
        with open(LOG, "w", encoding="utf-8") as log:
            how: dict[str, Any] = {"stdin": subprocess.DEVNULL, "stdout": log, "stderr": log, "start_new_session": True}
            subprocess.Popen(words, pass_fds=[lock.fileno()], cwd=TOP, **how)
        lock.close()

    def how_far(self) -> str:
        """The progress of the proof, in one line."""
        said = text_of(LOG)
        self.reported, begun = len(PROGRESS.findall(said)), BEGUN if os.path.exists(BEGUN) else PROOF
        count = TO_PROVE.findall(said)
        minutes = max(0, int(time.time() - os.stat(begun).st_mtime)) // 60
        return f"{self.reported}{f' of {count[0]}' if count else ''} crates proved after {minutes} min; log {LOG}"

    def tell(self) -> None:
        """Prints a line for each crate that was proved since the last progress line."""
        for line in PROGRESS.findall(text_of(LOG))[self.reported :]:
            say(line)
            self.reported += 1


def is_taken_from_gate() -> bool:
    """Whether `rt ci` proved the existing program from the current sources."""
    import prove

    return prove.take_from_gate()


class Call:
    """This call of `goal`: its words, and what it starts, which ends with it."""

    def __init__(self, words: list[str]) -> None:
        self.words, self.folder = words, tempfile.mkdtemp(prefix="goal-")
        self.trial: Trial | None = None
        for number in SIGNALS:
            signal.signal(number, self.interrupted)

    def interrupted(self, number: int, _: object) -> None:
        """Handles a signal: ends this process at once, without an exception and without output."""
        for each in SIGNALS:
            signal.signal(each, signal.SIG_IGN)
        if self.trial:
            self.trial.stop()
        shutil.rmtree(self.folder, ignore_errors=True)
        os._exit(128 + number)

    def end(self) -> None:
        """Ends what this call started."""
        if self.trial:
            self.trial.stop()
            self.trial.wait()
        shutil.rmtree(self.folder, ignore_errors=True)

    def run_program(self) -> None:
        """Becomes the proved program. It reads copies of the devices that this call has already read."""
        copies = {}
        for number, path in self.trial.copies.items() if self.trial else ():
            given = os.open(path, os.O_RDONLY)
            os.set_inheritable(given, True)
            copies[number] = f"/proc/self/fd/{given}"
        self.end()
        become(self.words, copies)

    def explain(self, status: int) -> None:
        """Explains the failure of an answer from the sources, if explanations are wanted."""
        import explain

        if self.trial and status in explain.EXPLAINED and explain.is_wanted():
            explain.say(explain.explain(self.words, status, self.trial.said, self.trial.copies))

    def status_from_sources(self, proof: Proof) -> int | None:
        """Answers from the sources. Returns the exit status, or None if there is no such answer or the proof ends
        first."""
        self.trial = trial = Trial(self.words, self.folder)
        if not trial.can_be:
            return None
        say("this answer comes from the sources, before their proof on this machine: it takes a minute or two")
        turn = None
        while not proof.is_done():
            if not trial.ran:
                # (one trial at a time per checkout, so that many calls leave the cores to the proof)
                turn = held(f"{PROOF}/trial")
                if turn:
                    trial.begin()
            elif trial.is_over():
                if turn:
                    turn.close()
                status = trial.status(proof.how_far())
                if status is None:
                    say("no answer from the sources (it may take over a minute, or be over 1 MiB): it comes after the proof")
                return status
            time.sleep(LOOK_SECONDS)
        say("the proof is done: the proved program answers")
        return None


def become(words: list[str], copies: dict[int, str] | None = None) -> None:
    """Becomes the proved program. `copies` has the path of the copy of each device, by the number of the word that
    names it."""
    for number in (signal.SIGPIPE, *SIGNALS):
        signal.signal(number, signal.SIG_DFL)
    # (huge pages, for which `goal` also asks)
    os.environ.setdefault("GLIBC_TUNABLES", "glibc.malloc.hugetlb=1")
    import explain

    explain.become(PROGRAM, words, copies or {})


def wait_for(proof: Proof) -> None:
    """Waits until the program is proved, and reports progress."""
    say(f"waiting for the proof: {proof.how_far()}")
    while not proof.is_done():
        proof.tell()
        time.sleep(LOOK_SECONDS)
    proof.tell()


def answer(words: list[str]) -> int:
    """Answers these words, and returns the exit status. Often this process becomes the program, and does not return."""
    os.makedirs(PROOF, exist_ok=True)
    waits = os.environ.get("GOAL_PROVED") == "1"
    proof, call = Proof(waits), Call(words)
    try:
        if not proof.is_done():
            if not waits and not all(is_text(it) for it in words):
                say("a word of the command line is not UTF-8")
                return NO_TEXT
            status = None if waits else call.status_from_sources(proof)
            if status is not None:
                call.explain(status)
                return status
            if not proof.is_done():
                wait_for(proof)
        call.run_program()
    finally:
        call.end()
    return NO_PROOF


def is_text(word: str) -> bool:
    """Whether a word of the command line is UTF-8, which the program requires."""
    try:
        os.fsencode(word).decode("utf-8")
        return True
    except UnicodeDecodeError:
        return False


def where() -> int:
    """Prints the path of a proved program. Returns the exit status."""
    if not sources.is_current():
        os.makedirs(PROOF, exist_ok=True)
        proof = Proof(True)
        if os.environ.get("GOAL_PROVED") != "1":
            if not sources.is_left() or not is_taken_from_gate():
                return NO_PROOF
        elif not proof.is_done():
            wait_for(proof)
    print(PROGRAM)
    return 0


def main(words: list[str]) -> int:
    """Answers these words. Returns the exit status."""
    for it in SIGNALS:
        signal.signal(it, lambda number, _: os._exit(128 + number))
    # (`goal` blocks SIGINT until here)
    signal.pthread_sigmask(signal.SIG_UNBLOCK, {signal.SIGINT})
    # (a closed standard stream gets a descriptor that cannot be written, so that no later file gets its number)
    for number in range(3):
        try:
            os.fstat(number)
        except OSError:
            os.open(os.devnull, os.O_RDONLY)
    try:
        if words[:1] == ["--"] and sources.is_current():
            become(words[1:])
        if not shutil.which("rt") and not sources.is_current():
            say("no proved program, and rt is not on the PATH: install the Rattle kit, which proves and builds it")
            return NO_PROOF
        return where() if words == ["--where"] else answer(words[1:])
    except OSError as error:
        say(f"no answer: {error}")
        return NO_PROOF
