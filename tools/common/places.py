"""Places in a text: lines and columns, and the items of a schedule as they are written. It accepts any text, also one
with faults. Nothing of it is proved."""
from __future__ import annotations

import re
from dataclasses import dataclass
from typing import Dict, Iterator, List, Optional, Tuple

COMPILED = b"\x89"
TOKEN = re.compile(rb"//[^\n]*|/\*.*?\*/|[A-Za-z0-9_]+|[{}:]|[^ \t\r\n]", re.DOTALL)
NUMBER = re.compile(rb"[0-9]+b?")
ACTIONS = (b"calc", b"send", b"recv")
NEEDS, NOTES = (b"requires", b"irequires"), (b"moves", b"adds")
# The words that may follow the first word of an action, in addition to numbers and sizes.
OPTIONS = (b"to", b"from", b"tag", b"cpu", b"nic", b"any")
# Options with their default values.
PLAIN = re.compile(r" (?:tag|cpu|nic) 0\b")
OPERATION, DEPENDENCY, NOTE, BLOCK = "operation", "dependency", "note", "block"


def line_and_column(text: bytes, byte: int) -> Tuple[int, int, str]:
    """The line and the column of a byte, both from 1, and the whole line. Columns count characters."""
    start = text.rfind(b"\n", 0, byte) + 1
    end = text.find(b"\n", byte)
    line = text[start:end if end >= 0 else len(text)]
    return text.count(b"\n", 0, byte) + 1, len(decoded(line[:byte - start])) + 1, decoded(line).rstrip("\r")


def decoded(line: bytes) -> str:
    return line.decode("utf-8", "replace")


def tokens(text: bytes) -> Iterator[Tuple[bytes, int]]:
    """The tokens of a schedule's text, and the byte at which each begins. Comments are skipped."""
    for found in TOKEN.finditer(text):
        if not found[0].startswith((b"//", b"/*")):
            yield found[0], found.start()


@dataclass
class Item:
    """An operation, a dependency, a note, or the block of a rank.

    `number` counts the items of its kind in the rank, from 0. `byte` is where the item begins. `words` has its words,
    those of an operation with the label."""

    kind: str
    rank: int
    number: int
    byte: int
    words: List[bytes]

    def __str__(self) -> str:
        return decoded(b" ".join(self.words)).replace(" :", ":")

    @property
    def short(self) -> str:
        """The item as it is written, without options that have their default values."""
        return PLAIN.sub("", str(self))

    def goes_on(self, word: bytes) -> bool:
        """Whether the item continues with this word."""
        if self.kind == OPERATION:
            return word in OPTIONS or NUMBER.fullmatch(word) is not None
        return len(self.words) < {DEPENDENCY: 3, NOTE: 5, BLOCK: 2}[self.kind]


def items(text: bytes) -> Iterator[Item]:
    """The items of a schedule's text, in its order."""
    rank, counts = 0, dict.fromkeys((OPERATION, DEPENDENCY, NOTE), 0)
    current: Optional[Item] = None
    before = [(b"", 0), (b"", 0)]
    for word, byte in tokens(text):
        if current and current.goes_on(word):
            current.words.append(word)
            if current.kind == BLOCK and word.isdigit():
                rank = current.rank = current.number = int(word)
                counts = dict.fromkeys(counts, 0)
        else:
            if current:
                yield current
            current = started(word, byte, before, rank, counts)
        before = [before[1], (word, byte)]
    if current:
        yield current


def started(word: bytes, byte: int, before: List[Tuple[bytes, int]], rank: int, counts: Dict[str, int]) -> Optional[Item]:
    """The item that this word, or a label before it, begins; None if it begins none. Its number is taken from
    `counts`."""
    if word == b"rank":
        return Item(BLOCK, rank, rank, byte, [word])
    if word in ACTIONS:
        start = before if before[1][0] == b":" else []
        kind = OPERATION
    elif word in NEEDS + NOTES:
        start = before[1:]
        kind = DEPENDENCY if word in NEEDS else NOTE
    else:
        return None
    counts[kind] += 1
    return Item(kind, rank, counts[kind] - 1, (start + [(word, byte)])[0][1], [part for part, _ in start] + [word])


def operations(text: bytes) -> Iterator[Item]:
    """The operations of a schedule's text, in its order."""
    return (item for item in items(text) if item.kind == OPERATION)


class Places:
    """The places of the items of a schedule, for messages. A compiled file has no lines: `text` is then its canonical
    text, and `has_lines` is False."""

    def __init__(self, name: str, text: bytes, has_lines: bool = True) -> None:
        self.name, self.text, self.has_lines = name, text, has_lines
        self._found: Dict[Tuple[str, int, int], Item] = {}
        for item in items(text):
            self._found.setdefault((item.kind, item.rank, item.number), item)

    def at(self, byte: int) -> str:
        """The place of a byte in the form FILE:LINE:COLUMN."""
        line, column, _ = line_and_column(self.text, byte)
        return f"{self.name}:{line}:{column}"

    def told(self, rank: int, number: int, kind: str = OPERATION) -> Optional[str]:
        """The place of an item and how it is written, or None if it does not exist."""
        item = self._found.get((kind, rank, number))
        if item is None:
            return None
        place = self.at(item.byte) if self.has_lines else self.name
        what = f"{rank} {number}" if kind == OPERATION else str(kind) if kind == BLOCK else f"{kind} {rank} {number}"
        return f"{place}: {what} is {item}"

    def item(self, rank: int, number: int, kind: str = OPERATION) -> Optional[Item]:
        """The item, or None if it does not exist."""
        return self._found.get((kind, rank, number))

    def label(self, rank: int, number: int) -> Optional[str]:
        """The label of an operation, if it has one."""
        item = self.item(rank, number)
        return decoded(item.words[0]) if item and item.words[1:2] == [b":"] else None

    def notes(self, rank: int, number: int) -> List[Item]:
        """The notes on an operation, in their order."""
        label = self.label(rank, number)
        found = (item for (kind, where, _), item in self._found.items() if kind == NOTE and where == rank)
        return [item for item in found if label is not None and decoded(item.words[0]) == label]
