"""sources.py begin|end: records from which sources the program is proved, and compares them with the current sources.

`.ci/run` calls it before and after `rt ci`. A program is current if the contents of its sources are unchanged. Files
beside the program show that:

- the record: the digest of its sources, the line that names the kit, and the digest of the program;
- the check: sizes, times and inodes at the time when the contents were last read. `goal` compares these at each call.
  If they differ, answer.py reads the contents again.

Nothing of this is proved."""
from __future__ import annotations

import hashlib
import os
import shlex
import shutil
import stat
import sys
import time
from typing import Iterator

TOP = os.path.dirname(os.path.dirname(os.path.abspath(__file__)))
PROGRAM = f"{TOP}/crates/goal_prog/out/goal_prog"
PROOF = f"{TOP}/.proof"
# The state of sources and kit, with all times and inodes, at the start of the proof that is running or was stopped.
BEGUN = f"{PROOF}/begun"
RECORD, CHECK = f"{PROGRAM}.proved", f"{PROGRAM}.check"
PARTS = ("src", "specs", "proofs")
# The check runs this many calls of stat(1) in parallel.
CALLS = 3
FORMAT = "%s %.9Y %.9Z %i"
# A file that changed less than this long ago may change again and keep its time. These are two ticks of a slow clock.
TICK_NS = 20_000_000


def text_of(path: str) -> str:
    """The contents of a small file, without surrounding blanks; empty if it cannot be read."""
    try:
        with open(path, encoding="utf-8", errors="replace") as file:
            return file.read().strip()
    except OSError:
        return ""


def put(path: str, text: str) -> None:
    """Writes a file atomically: no other process sees a part of it."""
    new = f"{path}.{os.getpid()}"
    with open(new, "w", encoding="utf-8", errors="surrogateescape") as file:
        file.write(text)
    os.replace(new, path)


def used() -> list[str]:
    """The crate of the program, and all crates that it uses."""
    lines = [line.partition("#")[0].partition(":") for line in text_of(f"{TOP}/crates.txt").split("\n")]
    uses = {name.strip(): deps.split() for name, _, deps in lines}
    found, left = set(), ["goal_prog"]
    while left:
        name = left.pop()
        if name not in found:
            found.add(name)
            left += uses.get(name, [])
    return sorted(found)


def sources() -> Iterator[str]:
    """The files and folders that the program is proved from, below the top, in a fixed order."""
    yield from ("crates.txt", "HANDLES")
    for crate in used():
        for part in PARTS:
            for at, folders, names in os.walk(f"{TOP}/crates/{crate}/{part}"):
                folders.sort()
                yield from (os.path.relpath(f"{at}/{name}", TOP) for name in ["", *sorted(names)])


def sum_of(path: str) -> str:
    """The digest of a plain file's bytes; for anything else, its file type."""
    mode = os.lstat(path).st_mode
    if not stat.S_ISREG(mode):
        return oct(stat.S_IFMT(mode))
    with open(path, "rb") as file:
        return hashlib.sha256(file.read()).hexdigest()


def digest() -> str:
    """The digest of all sources, by name and content. A source that cannot be read counts as changed."""
    found = hashlib.sha256()
    for name in sources():
        try:
            of = sum_of(f"{TOP}/{name}")
        except OSError:
            of = "none"
        found.update(os.fsencode(f"{name}\0{of}\0"))
    return found.hexdigest()


def kit_file() -> str | None:
    """The file with the line that names the kit, which `rt version` prints; None without a kit."""
    command = shutil.which("rt")
    return f"{os.path.dirname(os.path.dirname(os.path.realpath(command)))}/KIT-ID" if command else None


def kit() -> str:
    """The line that names the kit; empty without a kit."""
    path = kit_file()
    return text_of(path).partition("\n")[0] if path else ""


def line_of(path: str) -> str:
    """The output of `stat -c` for a file with FORMAT; empty if the file does not exist."""
    try:
        it = os.lstat(os.path.join(TOP, path))
    except OSError:
        return ""
    times = (f"{ns // 10**9}.{ns % 10**9:09}" for ns in (it.st_mtime_ns, it.st_ctime_ns))
    return f"{it.st_size} {' '.join(times)} {it.st_ino}"


def state() -> str:
    """The digest of the sources, the kit, and a line of stat for each source."""
    lines = [line_of(it) for it in sources()]
    return "\n".join([digest(), kit(), *lines])


def is_of(recorded: str) -> bool:
    """Whether a text begins with the digest of the current sources and the current kit. Without a kit, any kit fits."""
    lines = [*recorded.split("\n"), "", ""]
    return lines[0] == digest() and kit() in ("", lines[1])


def is_recorded() -> bool:
    """Whether the record is about the existing program, whatever its sources."""
    try:
        return text_of(RECORD).split("\n")[2:] == [sum_of(PROGRAM)]
    except OSError:
        return False


def checked() -> list[str]:
    """What the check compares: the program, its sources, the folders of their crates, and the kit. A missing file is
    left out: when it is created, its folder changes."""
    folders, of_kit = [f"crates/{it}" for it in used()], kit_file()
    names = [os.path.relpath(PROGRAM, TOP), *folders, *sources(), *([of_kit] if of_kit else [])]
    return [it for it in names if os.path.lexists(os.path.join(TOP, it))]


def is_left() -> bool:
    """Whether there is a program without a matching record, for example after `rt ci`."""
    return os.access(PROGRAM, os.X_OK) and not is_recorded()


def keep_check(names: list[str], lines: list[str]) -> None:
    """Writes the check, with which the next calls compare only times. It is not written if a file changed just now."""
    now, size = time.time_ns(), -(-len(names) // CALLS)
    times = [os.lstat(os.path.join(TOP, name)).st_ctime_ns for name in names]
    if any(now - TICK_NS <= it <= now for it in times):
        return
    calls, inside = [], os.path.relpath(CHECK, TOP)
    for at in range(0, len(names), size):
        words = " ".join(map(shlex.quote, names[at : at + size]))
        put(f"{CHECK}.{at // size}", "".join(f"{line}\n" for line in lines[at : at + size]))
        calls.append(f"stat -c '{FORMAT}' -- {words} | cmp -s - {inside}.{at // size}")
    begins = [f"{call} & call{number}=$!" for number, call in enumerate(calls[1:], 1)]
    waits = [f"wait $call{number} || is_same=false" for number in range(1, len(calls))]
    put(CHECK, "\n".join([*begins, "is_same=true", f"{calls[0]} || is_same=false", *waits, "$is_same\n"]))


def is_current() -> bool:
    """Whether the program exists and is proved from the current contents of the sources."""
    if not is_recorded() or not os.access(PROGRAM, os.X_OK):
        return False
    # (times are read before contents, so that the next call notices a change after this point)
    try:
        names = checked()
        lines = [line_of(it) for it in names]
        if not is_of(text_of(RECORD)) or not is_recorded():
            return False
        keep_check(names, lines)
    except OSError:
        # (for example in a folder that cannot be written, where each call reads the contents)
        return is_of(text_of(RECORD)) and is_recorded()
    return True


def begin() -> None:
    """Records the state of the sources at the start of a proof."""
    os.makedirs(PROOF, exist_ok=True)
    put(BEGUN, state())


def is_as_begun() -> bool:
    """Whether the sources are those of the last proof that was started."""
    begun = text_of(BEGUN)
    return bool(begun) and is_of(begun)


def record(begun: str) -> bool:
    """Records that the program is proved from the sources of this state, unless one was touched since. Whether it did
    so."""
    if begun != state().strip():
        return False
    lines = begun.split("\n")
    put(RECORD, f"{lines[0]}\n{lines[1]}\n{sum_of(PROGRAM)}\n")
    return True


def end() -> bool:
    """Records what was proved since `begin`, unless a source was touched meanwhile. Whether it did so."""
    is_whole = record(text_of(BEGUN))
    os.remove(BEGUN)
    return is_whole


if __name__ == "__main__":
    if sys.argv[1:] == ["begin"]:
        begin()
    elif sys.argv[1:] != ["end"]:
        sys.exit(__doc__)
    elif not end():
        sys.exit("goal: a source was touched during the proof, so the program may be of other sources: run it again")
