"""The command line of a tool, and its errors: one line on standard error and status 2. Nothing of it is proved."""
from __future__ import annotations

import argparse
import errno
import os
import re
import signal
import sys
from functools import lru_cache
from typing import IO, Callable, NoReturn, Optional

FAULT = 2
WRITE_FAULT = 5
INTERRUPTED, TERMINATED = 130, 143
STANDARD_INPUT = "/dev/stdin"
# The suffixes of a number of bytes, and their factors.
FACTORS = {"": 1, "K": 1024, "M": 1024**2}
# The prefix of the names of installed tools.
INSTALLED = "goal-"


class Fault(Exception):
    """An error of the user, described in one line."""


class Terminated(BaseException):
    """A signal asks this program to end."""


def end_when_asked() -> None:
    """Makes SIGTERM and SIGHUP raise `Terminated`, so that temporary files are removed."""

    def end(number: int, _: object) -> None:
        signal.signal(number, signal.SIG_IGN)
        raise Terminated

    for number in (signal.SIGTERM, signal.SIGHUP):
        if signal.getsignal(number) == signal.SIG_DFL:
            signal.signal(number, end)


class Parser(argparse.ArgumentParser):
    """A parser of arguments that raises a Fault if they are wrong. Options cannot be abbreviated."""

    def error(self, message: str) -> NoReturn:
        raise Fault(f"{message} (see --help)")

    def format_help(self) -> str:
        """The help text. Installed tools are called goal-NAME and the installed program goal, and the text of an
        installed tool uses these names."""
        text = super().format_help()
        return text.replace("tools/", INSTALLED).replace("./goal ", "goal ") if self.prog.startswith(INSTALLED) else text

    def _print_message(self, message: str, file: Optional[IO[str]] = None) -> None:
        """Writes the help. Unlike argparse, it raises an error if writing fails, as for all other output."""
        (file or sys.stdout).write(message)


def parser(description: Optional[str], epilog: Optional[str] = None) -> Parser:
    """A parser for a tool with this description and epilog, which are printed without reflowing."""
    how = argparse.RawDescriptionHelpFormatter
    return Parser(description=description, epilog=epilog, formatter_class=how, allow_abbrev=False)


def number_of(unit: str) -> str:
    """`a number of ranks`, `the number of a rank` or, without a unit, `a number`."""
    return f"{'the' if unit.startswith('a ') else 'a'} number{unit and f' of {unit}'}"


def number(low: int, high: int, unit: str = "") -> Callable[[str], int]:
    """The type of an argument that is a decimal number from `low` to `high`. Messages name the unit, if there is
    one."""

    def read(word: str) -> int:
        if not re.fullmatch("[0-9]{1,20}", word) or not low <= int(word) <= high:
            raise argparse.ArgumentTypeError(f"{word!r} is not {number_of(unit)} from {low} to {high}")
        return int(word)

    return read


def size(low: int, high: int) -> Callable[[str], int]:
    """The type of an argument that is a number of bytes from `low` to `high`, written as 4096, 4K or 16M."""

    def read(word: str) -> int:
        found = re.fullmatch("([0-9]{1,20})([KM]?)", word)
        if not found or not low <= int(found[1]) * FACTORS[found[2]] <= high:
            raise argparse.ArgumentTypeError(f"{word!r} is not a number of bytes from {low} to {high}, as 4096, 4K or 16M")
        return int(found[1]) * FACTORS[found[2]]

    return read


def source(name: str) -> str:
    """The name under which the program reads a file: `-` becomes /dev/stdin."""
    return STANDARD_INPUT if name == "-" else name


def read_file(name: str) -> bytes:
    """The bytes of a file, or of standard input if the name is `-`."""
    try:
        if source(name) != STANDARD_INPUT:
            with open(name, "rb") as file:
                return file.read()
        return standard_input()
    except OSError as error:
        raise Fault(f"{name}: {error.strerror}") from error


@lru_cache(maxsize=None)
def standard_input() -> bytes:
    """The bytes of standard input, which is read once."""
    if sys.stdin is None:
        raise Fault("standard input is closed")
    return sys.stdin.buffer.read()


def run(main: Callable[[], int]) -> NoReturn:
    """Runs `main`, reports its Fault, and ends the process with its status. If the reader of the output has closed the
    pipe, there is no message, and the status is that of a failed write."""
    hold_streams()
    try:
        status = ended(main)
        sys.stdout.flush()
    except BrokenPipeError:
        status = WRITE_FAULT
    except OSError as error:
        why = "it is closed" if error.errno == errno.EBADF else error.strerror
        tell(f"{error.filename}: {error.strerror}" if error.filename else f"standard output: {why}")
        status = FAULT
    leave(status)


def ended(main: Callable[[], int]) -> int:
    """Runs `main`, reports its Fault, and returns the exit status."""
    try:
        return main()
    except Fault as fault:
        tell(str(fault))
        return FAULT
    except MemoryError:
        tell("out of memory")
        return FAULT
    except KeyboardInterrupt:
        return INTERRUPTED
    except Terminated:
        return TERMINATED
    except SystemExit as end:
        return end.code if isinstance(end.code, int) else 0


def tell(line: str) -> None:
    """Writes a line on standard error; ignores failures."""
    try:
        print(f"{os.path.basename(sys.argv[0])}: {line}", file=sys.stderr, flush=True)
    except OSError:
        pass


def hold_streams() -> None:
    """Reserves the descriptors of closed standard streams, so that no file gets them. It also makes the streams accept
    file names of any bytes."""
    for stream in range(3):
        try:
            os.fstat(stream)
        except OSError:
            # (writing to it fails, as to a closed stream)
            os.open(os.devnull, os.O_WRONLY if stream == 0 else os.O_RDONLY)
    if sys.stdout is None:
        sys.stdout = open(1, "w", encoding="utf-8", closefd=False)
    if sys.stderr is None:
        sys.stderr = open(2, "w", encoding="utf-8", closefd=False)
    for output in (sys.stdout, sys.stderr):
        output.reconfigure(encoding="utf-8", errors="surrogateescape")  # type: ignore[attr-defined]


def leave(status: int) -> NoReturn:
    """Ends the process. Output that could not be written is not written again."""
    for stream, output in ((1, sys.stdout), (2, sys.stderr)):
        try:
            output.flush()
        except OSError:
            os.dup2(os.open(os.devnull, os.O_WRONLY), stream)
    sys.exit(status)
