"""Answers a command line from the sources, by `rt try`. It copies the inputs and outputs. Nothing of it is proved."""
from __future__ import annotations

import errno
import os
import re
import shutil
import signal
import stat
import subprocess
from typing import Any

from sources import TOP

WRITE_FAULT = 5
# One byte more than the longest input that a command accepts.
MOST_BYTES = 2**27 + 1
# The last lines that `rt try` prints after the program has ended, with its status, and the hints that it prints first.
ENDED = re.compile(rb"(?:\A|(?<=\n))checked: ended status=\d+\nrun=ended status=(\d+) [^\n]*proved=no\n\Z")
HINTS = re.compile(rb"\A(?:rt: [^\n]*\n)+")
# For each command, which of its arguments name files that it reads, as a range.
READS = {"sim": (0, 1), "waits": (0, 1), "knots": (0, 1), "show": (0, 1), "compile": (0, 1), "certify": (1, 2), "nodes": (0, 2)}


def say(line: str) -> None:
    """Writes a line `goal: ..` on standard error; ignores failures."""
    tell(os.fsencode(f"goal: {line}\n"))


def tell(text: bytes) -> None:
    """Writes to standard error; ignores failures."""
    try:
        os.write(2, text)
    except OSError:
        pass


def names_in(words: list[str]) -> tuple[list[int], list[int]]:
    """The numbers of the words that name files to read, and of those that name files to write."""
    plain, is_value = [], False
    for number, word in enumerate(words[1:], 1):
        is_option = not is_value and word.startswith("-")
        if not is_option and not is_value:
            plain.append(number)
        is_value = is_option and "=" not in word
    first, last = READS.get(words[0] if words else "", (0, 0))
    return plain[first:last], plain[1:2] if words[:1] == ["compile"] else []


def is_device(name: str) -> bool:
    """Whether the name may mean another file in another process, or its bytes can be read only once."""
    try:
        mode = os.stat(name).st_mode
    except OSError:
        return False
    return not (stat.S_ISREG(mode) or stat.S_ISDIR(mode)) or name.startswith(("/dev/", "/proc/"))


class Trial:
    """An answer from the sources. It runs in another folder, so it gets absolute names, and copies of devices. A
    compiled file goes to a temporary file first, and to OUT when it is complete. So a trial can be stopped at any
    time."""

    def __init__(self, words: list[str], folder: str) -> None:
        self.folder, self.ran, self.out = folder, None, None  # type: str, subprocess.Popen[bytes] | None, str | None
        self.copies: dict[int, str] = {}
        # what the program wrote on standard error, after it has ended
        self.said = ""
        self.named = list(words)
        reads, writes = names_in(words)
        for number in (it for it in reads + writes if words[it]):
            self.named[number] = self.from_root(words[number])
        self.can_be = not any(is_device(self.named[it]) for it in writes)
        for number in reads:
            if self.can_be and is_device(self.named[number]):
                self.can_be = self.copy(number)
        for number in (it for it in writes if words[it]):
            self.out, self.named[number] = self.named[number], f"{folder}/made"

    def from_root(self, name: str) -> str:
        """The absolute form of a file name."""
        try:
            return os.path.join(os.getcwd(), name)
        except FileNotFoundError:
            # (the working folder was removed, so no file is in it)
            return os.path.join(f"{self.folder}/removed", name)

    def copy(self, number: int) -> bool:
        """Copies the bytes of the device that the word with this number names. Whether it could be read."""
        path = f"{self.folder}/{number}"
        try:
            with open(self.named[number], "rb") as given, open(path, "wb") as to:
                self.named[number] = self.copies[number] = path
                left = MOST_BYTES
                while left:
                    piece = given.read(min(left, 1 << 20))
                    if not piece:
                        break
                    to.write(piece)
                    left -= len(piece)
        except OSError:
            return False
        return True

    def begin(self) -> None:
        """Starts the trial."""
        with open(f"{self.folder}/out", "wb") as out, open(f"{self.folder}/err", "wb") as err:
            how: dict[str, Any] = {"stdin": subprocess.DEVNULL, "stdout": out, "stderr": err, "cwd": f"{TOP}/crates/goal_prog"}
            self.ran = subprocess.Popen(["rt", "try", "--", *self.named], **how)

    def is_over(self) -> bool:
        """Whether the trial has ended."""
        return self.ran is not None and self.ran.poll() is not None

    def status(self, far: str) -> int | None:
        """After the trial has ended: reports the progress of the proof, `far`, and writes the output. Returns the exit
        status, or None if there is no answer."""
        with open(f"{self.folder}/err", "rb") as err:
            said = err.read()
        ended = ENDED.search(said)
        if not ended:
            return None
        say(far)
        status, told = int(ended[1]), HINTS.sub(b"", said[: ended.start()])
        try:
            self.hand_over()
            if self.out and status == 0:
                self.write_out(self.out)
        except OSError:
            status, told = WRITE_FAULT, b"goal: writing failed\n"
        tell(told)
        self.said = told.decode("utf-8", "replace").strip()
        return status

    def hand_over(self) -> None:
        """Writes the standard output of the program to that of this process."""
        with open(f"{self.folder}/out", "rb") as out:
            for piece in iter(lambda: out.read(1 << 16), b""):
                while piece:
                    piece = piece[os.write(1, piece) :]

    def write_out(self, path: str) -> None:
        """Writes OUT. Signals that would end this process are blocked meanwhile."""
        signals = {signal.SIGTERM, signal.SIGHUP, signal.SIGINT}
        signal.pthread_sigmask(signal.SIG_BLOCK, signals)
        try:
            with open(f"{self.folder}/made", "rb") as made, open(path, "wb", buffering=0) as to:
                shutil.copyfileobj(made, to)
                try:
                    os.fdatasync(to.fileno())
                except OSError as error:
                    # (the device does not support fdatasync)
                    if error.errno not in (errno.EINVAL, errno.EROFS):
                        raise
        finally:
            signal.pthread_sigmask(signal.SIG_UNBLOCK, signals)

    def stop(self) -> None:
        """Terminates the trial if it still runs. A signal handler may call this: it takes no lock."""
        if self.ran and self.ran.returncode is None:
            os.kill(self.ran.pid, signal.SIGTERM)

    def wait(self) -> None:
        """Waits until the trial has ended, if it was started."""
        if self.ran:
            self.ran.wait()
