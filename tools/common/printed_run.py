"""Reads a run that `goal sim` or `goal nodes` has printed. Nothing of it is proved."""
import re
from dataclasses import dataclass, field
from typing import Container, Dict, Iterable, List, Optional, Tuple

Key = Tuple[int, int]
NUMBER = re.compile("[0-9]{1,20}")


@dataclass(frozen=True)
class Timed:
    """An operation of a run: its times in nanoseconds and its partner, each None if it has none."""

    start: Optional[int]
    end: Optional[int]
    partner: Optional[Key]


@dataclass
class Run:
    """A run: the numbers of its first line, and by (rank, number) its operations and why stuck operations are stuck."""

    ranks: int
    ops: int
    stuck: int
    unread: int
    finish: int
    timed: Dict[Key, Timed] = field(default_factory=dict)
    reasons: Dict[Key, str] = field(default_factory=dict)


class NoRun(ValueError):
    """The text is not a printed run."""


def first_line(line: str) -> Run:
    """The run of a first line, without operations."""
    words = line.split()
    if words[::2] != ["ranks", "ops", "stuck", "unread", "finish"] or not all(NUMBER.fullmatch(word) for word in words[1::2]) or len(words) != 10:
        raise NoRun("no first line `ranks P ops N stuck K unread U finish T`")
    ranks, ops, stuck, unread, finish = map(int, words[1::2])
    return Run(ranks, ops, stuck, unread, finish)


def moment(word: str) -> Optional[int]:
    """The time that a word of a run gives, or None for `-`."""
    return None if word == "-" else int(word)


def read_run(lines: Iterable[str], ranks: Optional[Container[int]] = None) -> Run:
    """The run that these lines print. With `ranks`, it has only the operations of these ranks."""
    lines = iter(lines)
    run = first_line(next(lines, ""))
    for at, line in enumerate(lines, 2):
        words = line.split()
        try:
            kind, key = words[0], (int(words[1]), int(words[2]))
            if ranks is not None and key[0] not in ranks:
                continue
            if kind == "op":
                run.timed[key] = timed_of(words)
            elif kind == "stuck":
                run.reasons[key] = " ".join(words[3:])
            else:
                raise ValueError
        except (ValueError, IndexError):
            raise NoRun(f"line {at} is none of a printed run: {line.strip()}") from None
    return run


def timed_of(words: List[str]) -> Timed:
    """The operation of a line `op R I KIND start A end B [match Q J]`."""
    partner = (int(words[9]), int(words[10])) if len(words) == 11 else None
    return Timed(moment(words[5]), moment(words[7]), partner)
