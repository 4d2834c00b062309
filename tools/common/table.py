"""The table of a sweep as CSV: writes rows as they are computed, and reads them again. Nothing of it is proved."""
from __future__ import annotations

import csv
import fcntl
import io
import os
import stat
import sys
import time
from typing import Dict, IO, Iterable, Iterator, List, Optional, Sequence, Tuple

from common import command
from common.command import Fault
from common.grid import Point
from common.runs import SHARES, Result

Row = Dict[str, str]
# The columns with results of a run, in their order. Some are present only on request.
RESULTS = ("finish", "stuck", "wait", *SHARES, "protocol")


def line_of(fields: Iterable[object]) -> str:
    """A line of CSV."""
    text = io.StringIO()
    csv.writer(text, lineterminator="\n").writerow(fields)
    return text.getvalue()


class Table:
    """The columns of a sweep: its axes, its results and, if the rows are kept in a file, the version of the program."""

    def __init__(self, axes: Iterable[str], wait: bool, shares: bool, version: str = "") -> None:
        self.axes = list(axes)
        left_out = [*([] if wait else ["wait"]), *([] if shares else SHARES)]
        self.version = version
        results = [name for name in RESULTS if name not in left_out]
        self.columns = [*self.axes, *results, *(["program"] if version else [])]

    def row(self, point: Point, result: Result) -> Row:
        values = {**point, **result.columns(), "program": self.version}
        return {name: values.get(name, "") for name in self.columns}

    def point(self, row: Row) -> Tuple[str, ...]:
        """The values of the axes in a row, which identify its point."""
        return tuple(row[axis] for axis in self.axes)


class Output:
    """Standard output, or a file to which rows are appended. Each row is written at once."""

    def __init__(self, table: Table, file: Optional[IO[str]] = None) -> None:
        self.table, self.file = table, file or sys.stdout

    def write(self, fields: Iterable[object]) -> None:
        line = line_of(fields)
        if self.file is sys.stdout:
            self.file.write(line)
            self.file.flush()
            return
        rest = line.encode("utf-8", "surrogateescape")
        try:
            while rest:
                rest = rest[os.write(self.file.fileno(), rest) :]
        except OSError as why:
            raise Fault(f"{self.file.name}: {why.strerror}") from None

    def write_header(self) -> None:
        self.write(self.table.columns)

    def write_row(self, row: Row) -> None:
        self.write(row.values())


def opened(path: str) -> IO[str]:
    """Opens a file to read and append to. Refuses it if another sweep has it open."""
    try:
        file = open(path, "a+", encoding="utf-8", newline="")
        fcntl.flock(file, fcntl.LOCK_EX | fcntl.LOCK_NB)
    except BlockingIOError:
        raise Fault(f"{path}: another sweep is writing to it: wait for it, or give another file") from None
    except OSError as why:
        raise Fault(f"{path}: {why.strerror}") from None
    if not stat.S_ISREG(os.fstat(file.fileno()).st_mode):
        raise Fault(f"{path}: not a regular file: give another to --into")
    return file


def rows_kept(table: Table, points: Sequence[Point], file: IO[str]) -> List[Row]:
    """The rows of a file, which are those of the first points. Removes an incomplete last line from the file."""
    file.seek(0)
    text = file.read()
    whole = text[: text.rfind("\n") + 1]
    if whole != text:
        os.ftruncate(file.fileno(), len(whole.encode("utf-8")))
    rows: List[Row] = []
    for line, fields in numbered(whole):
        if line == 1:
            check_columns(table, f"{file.name}:{line}", fields)
            continue
        row = row_of(table, f"{file.name}:{line}", fields)
        if len(rows) == len(points):
            raise Fault(f"{file.name}:{line}: the grid has only {len(points)} points: give the axes of this file, or another file")
        check_axes(table, f"{file.name}:{line}", row, points[len(rows)])
        if row["program"] != table.version:
            versions = f"the program is {row['program']} there, and {table.version} now"
            raise Fault(f"{file.name}:{line}: {versions}: give another file")
        rows.append(row)
    return rows


def numbered(text: str) -> Iterator[Tuple[int, List[str]]]:
    """The lines of a CSV with their numbers."""
    reader = csv.reader(io.StringIO(text, newline=""))
    for fields in reader:
        yield reader.line_num, fields


def check_columns(table: Table, where: str, fields: List[str]) -> None:
    if fields != table.columns:
        raise Fault(f"{where}: the columns are {','.join(fields)}, and those of this grid {','.join(table.columns)}")


def row_of(table: Table, where: str, fields: List[str]) -> Row:
    if len(fields) != len(table.columns):
        raise Fault(f"{where}: {len(fields)} fields in this row, and {len(table.columns)} columns")
    return dict(zip(table.columns, fields))


def check_axes(table: Table, where: str, row: Row, point: Point) -> None:
    for axis in table.axes:
        if row[axis] != point[axis]:
            values = f"{axis} is {row[axis] or 'empty'} there, and {point[axis] or 'empty'} in this grid"
            raise Fault(f"{where}: a row of other axes: {values}")


def gathered(table: Table, points: Sequence[Point], paths: Iterable[str]) -> List[Optional[Row]]:
    """For each point, its row in these files, or None if it is missing. The files may have the rows in any order. An
    incomplete last line of a file is ignored."""
    places = {tuple(point[axis] for axis in table.axes): place for place, point in enumerate(points)}
    rows: List[Optional[Row]] = [None] * len(points)
    version = ""
    for path in paths:
        text = command.read_file(path).decode("utf-8", "surrogateescape")
        for line, fields in numbered(text[: text.rfind("\n") + 1]):
            where = f"{path}:{line}"
            if fields[:1] == table.columns[:1]:
                check_columns(table, where, fields)
                continue
            row = row_of(table, where, fields)
            place = places.get(table.point(row))
            if place is None:
                said = " ".join(f"{axis}={row[axis]}" for axis in table.axes if row[axis])
                raise Fault(f"{where}: a row of other axes: {said} is no point of this grid")
            version = version or row["program"]
            if row["program"] != version:
                raise Fault(f"{where}: the program is {row['program']} there, and {version} in the rows before")
            if rows[place] not in (None, row):
                raise Fault(f"{where}: another result than in an earlier row of the same point")
            rows[place] = row
    return rows


def ranges_of(numbers: Iterable[int], most: int) -> Iterator[Tuple[int, int]]:
    """Rising numbers as ranges of successive numbers, with at most `most` numbers each."""
    first = last = -1
    for number in numbers:
        if first >= 0 and number == last + 1 and number - first < most:
            last = number
            continue
        if first >= 0:
            yield first, last
        first = last = number
    if first >= 0:
        yield first, last


def range_text(first: int, last: int) -> str:
    return str(first) if first == last else f"{first}..{last}"


class Progress:
    """A line with the progress, if standard error is a terminal. Rows may go to the same terminal."""

    def __init__(self, done: int, count: int) -> None:
        self.first = self.done = done
        self.count, self.begun, self.shown, self.width = count, time.monotonic(), 0.0, 0
        self.is_on = sys.stderr.isatty()

    def clear(self) -> None:
        """Removes the line, to make room for a row."""
        if self.is_on and self.width and sys.stdout.isatty():
            sys.stderr.write("\r" + " " * self.width + "\r")
            sys.stderr.flush()
            self.width = 0

    def step(self) -> None:
        """Counts another run as done, and shows the progress."""
        self.done += 1
        now = time.monotonic()
        if not self.is_on or (now - self.shown < 0.1 and self.done < self.count):
            return
        self.shown = now
        rest = (now - self.begun) / (self.done - self.first) * (self.count - self.done)
        left = f", {duration(rest)} left" if self.done < self.count else ""
        line = f"sweep: {self.done} of {self.count} runs{left}"
        sys.stderr.write("\r" + line.ljust(self.width) + ("\n" if self.done == self.count else ""))
        sys.stderr.flush()
        self.width = len(line)


def duration(seconds: float) -> str:
    """A duration in a unit that fits: seconds, minutes, or hours and minutes."""
    minutes = round(seconds / 60)
    if seconds < 90:
        return f"{max(1, round(seconds))} s"
    return f"{minutes} min" if minutes < 90 else f"{minutes // 60} h {minutes % 60} min"


def check_writable(path: str) -> None:
    """Refuses a path that cannot be written, before anything runs."""
    folder = os.path.dirname(path) or "."
    if os.path.isdir(path):
        raise Fault(f"{path}: Is a directory")
    if not os.path.isdir(folder):
        raise Fault(f"{path}: No such file or directory")
    if not os.access(path if os.path.exists(path) else folder, os.W_OK):
        raise Fault(f"{path}: Permission denied")
