"""The format of files of rows, and a reader for them. Nothing of it is proved.

A row is one call of the program in its own folder, with the expected answer:

    # a comment
    row one message
    file a: num_ranks 2 rank 0 { send 10b to 1 } rank 1 { recv 10b from 0 }
    $ sim a
    > ranks 2 ops 2 stuck 0 unread 0 finish 5554
    > ...

    row a size over its limit, {words}
    with text="calc 5x" words="lex at 26"
    with text="calc 5b" words="syntax at 26"
    file a: num_ranks 1 rank 0 { {text} }
    $ sim a
    status 3
    ! goal: refused: text: {words}

A row has these lines, in any order. An indented line continues the line before it. Defaults are in brackets:

    file NAME: TEXT        a file with this text; lines end with LF, except the last
    bytes NAME: HEX        a file with these bytes
    make NAME: COMMAND     a file with the output of this bash command, in which `goal` is the program
    do: COMMAND            a bash command to run before the call; it must succeed
    $ WORDS                the call: the words after the program's name, quoted as in a shell; \\xNN is a byte
    stdin: COMMAND         the standard input of the call: the output of this bash command
    pieces                 makes a call for each way to cut the input in two, and a call with one byte at a time
    status N               the expected exit status (0)
    > LINE                 a line of the expected output; `> ...` matches any lines (no output)
    prints: COMMAND        the expected output is that of this bash command
    checked: COMMAND       instead of `>` and `prints`: this bash command must succeed, with the output as its standard
                           input
    ! LINE                 a line of the expected standard error (nothing)
    wrote NAME: HEX        after the call, the file must have these bytes. `as OTHER` instead of HEX: the bytes of the
                           file OTHER. `none`: the file must not exist
    kilobytes N            the limit of the call's address space, in KiB (none)
    seconds N              the limit of the call's run time (60)
    with KEY=VALUE ..      makes a row for each such line, with each {KEY} replaced; a value N..M makes a row per number

A `file`, `bytes` or `make` before the first row is shared: each row that names the file gets it.
"""
from __future__ import annotations

import itertools
import re
import shlex
from dataclasses import dataclass, field, replace
from pathlib import Path

ONE_LINE = ("file", "bytes", "make")


class RowFault(Exception):
    """A file of rows that cannot be read: where and why."""


@dataclass(frozen=True)
class Made:
    """A file that a row needs: how it is made (`file`, `bytes` or `make`), its name, and the text, bytes or command."""

    how: str
    name: str
    what: str


@dataclass(frozen=True)
class Row:
    """A call and the expected answer."""

    name: str
    place: str
    made: tuple[Made, ...] = ()
    before: tuple[str, ...] = ()
    words: str | None = None
    stdin: str | None = None
    pieces: bool = False
    status: str = "0"
    out: tuple[str, ...] = ()
    prints: str | None = None
    checked: str | None = None
    err: tuple[str, ...] = ()
    wrote: tuple[tuple[str, str], ...] = ()
    kilobytes: int | None = None
    seconds: float = 60
    withs: tuple[str, ...] = field(default=(), compare=False)


def lines_of(path: Path) -> list[tuple[int, str]]:
    """The lines of a file with their numbers, without comments and blank lines. Indented lines are joined to the line
    before."""
    lines: list[tuple[int, str]] = []
    for number, line in enumerate(path.read_text(encoding="utf-8").splitlines(), 1):
        if not line.strip() or line.startswith("#"):
            continue
        if line.startswith("    ") and lines:
            lines[-1] = (lines[-1][0], lines[-1][1] + "\n" + line[4:])
        else:
            lines.append((number, line))
    return lines


def made_of(line: str) -> Made | None:
    """The file that a line makes, or None."""
    found = re.fullmatch(r"(file|bytes|make) ([\w.]+):[ \n]?(.*)", line, re.DOTALL)
    return Made(found[1], found[2], found[3]) if found else None


def with_line(row: Row, line: str) -> Row:
    """The row with another line added."""
    made = made_of(line)
    if made is not None:
        return replace(row, made=(*row.made, made))
    sign, _, rest = line.partition(" ")
    if sign == "$":
        return replace(row, words=rest)
    if sign == ">":
        return replace(row, out=(*row.out, rest))
    if sign == "!":
        return replace(row, err=(*row.err, rest))
    if sign == "with":
        return replace(row, withs=(*row.withs, rest))
    if sign == "do:":
        return replace(row, before=(*row.before, rest))
    if sign in ("stdin:", "prints:", "checked:"):
        return replace(row, **{sign[:-1]: rest})
    if sign == "status":
        return replace(row, status=rest)
    if sign == "kilobytes":
        return replace(row, kilobytes=int(rest))
    if line == "pieces":
        return replace(row, pieces=True)
    if sign == "seconds":
        return replace(row, seconds=float(rest))
    if sign == "wrote":
        name, _, value = rest.partition(": ")
        return replace(row, wrote=(*row.wrote, (name, value)))
    raise RowFault(f"{row.place}: this is not a line of a row: {line}")


def choices_of(withs: tuple[str, ...]) -> list[dict[str, str]]:
    """The values of the keys for each row that a template makes."""
    choices: list[dict[str, str]] = []
    for line in withs:
        lists: list[list[tuple[str, str]]] = []
        for word in shlex.split(line):
            key, _, value = word.partition("=")
            spans = re.fullmatch(r"(\d+)\.\.(\d+)", value)
            values = [str(n) for n in range(int(spans[1]), int(spans[2]) + 1)] if spans else [value]
            lists.append([(key, one) for one in values])
        choices.extend(dict(choice) for choice in itertools.product(*lists))
    return choices


def filled(row: Row, choice: dict[str, str]) -> Row:
    """The row that a template makes for these values of its keys."""

    def fill(text: str) -> str:
        for key, value in choice.items():
            text = text.replace("{" + key + "}", value)
        return text

    def maybe(text: str | None) -> str | None:
        return None if text is None else fill(text)

    return replace(
        row,
        name=fill(row.name),
        made=tuple(Made(it.how, it.name, fill(it.what)) for it in row.made),
        before=tuple(fill(it) for it in row.before),
        words=maybe(row.words),
        stdin=maybe(row.stdin),
        status=fill(row.status),
        out=tuple(fill(it) for it in row.out),
        prints=maybe(row.prints),
        checked=maybe(row.checked),
        err=tuple(fill(it) for it in row.err),
        wrote=tuple((name, fill(value)) for name, value in row.wrote),
        withs=(),
    )


def rows_of(path: Path) -> tuple[list[Made], list[Row]]:
    """The shared files of a file of rows, and its rows. Raises RowFault if a line or a name is wrong."""
    shared: list[Made] = []
    rows: list[Row] = []
    for number, line in lines_of(path):
        place = f"{path.name}:{number}"
        if line.startswith("row "):
            rows.append(Row(name=line[4:], place=place))
        elif rows:
            rows[-1] = with_line(rows[-1], line)
        else:
            made = made_of(line)
            if made is None:
                raise RowFault(f"{place}: before the first row there can only be {', '.join(ONE_LINE)}")
            shared.append(made)
    whole = [one for row in rows for one in ([filled(row, it) for it in choices_of(row.withs)] if row.withs else [row])]
    for row in whole:
        if row.words is None:
            raise RowFault(f"{row.place}: the row has no call: add a line that begins with $")
    return shared, whole
