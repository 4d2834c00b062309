"""explain.py PROGRAM STATUS WORD..: explains on standard error why PROGRAM with the words WORD.. ended with STATUS.

The program itself prints one line, which its rules fix, and ends with 2 (wrong command line), 3 (refused) or 4 (reading
failed). If standard error is a terminal, or GOAL_EXPLAIN=1 is set, the launcher adds a line: the wrong word and what is
expected there, the file that cannot be read and why, or the line and column of a byte. Otherwise it adds nothing.

Nothing of this is proved. The rules are those of docs/COMMANDS.md, and tests compare them with the program."""
from __future__ import annotations

import difflib
import errno
import os
import re
import stat
import subprocess
import sys
from typing import Dict, List, Mapping, NamedTuple, NoReturn, Optional, Sequence, Tuple

TOP = os.path.dirname(os.path.dirname(os.path.abspath(__file__)))
sys.path.append(os.path.join(TOP, "tools"))
from common.limits import KINDS, MOST_BYTES, MOST_INPUT, MOST_PARAMETER, MOST_RANKS, MOST_ROUNDS, MOST_SEED, ROOTED  # noqa: E402

# The file in an installation that names the sources from which it was installed.
VERSION = os.path.join(TOP, "VERSION")
BAD_LINE, REFUSED, READ_FAULT = 2, 3, 4
EXPLAINED = (BAD_LINE, REFUSED, READ_FAULT)

NANOS, BYTES, PER_BYTE, PICOS = "ns", "bytes", "ns per byte", "ps per byte"
UNITS = {"L": NANOS, "o": NANOS, "g": NANOS, "G": PER_BYTE, "Gp": PICOS, "O": PER_BYTE, "Op": PICOS, "S": BYTES}
# The greatest value of each option of a run, and its unit.
RUN_OPTIONS: Dict[str, Tuple[int, str]] = {f"--{name}": (most, UNITS[name]) for name, most in MOST_PARAMETER.items()}
ROOT_OPTION: Dict[str, Tuple[int, str]] = {"--root": (MOST_RANKS - 1, "a rank")}
# The arguments of each command, its options, and what it does.
COMMANDS: Dict[str, Tuple[Tuple[str, ...], Dict[str, Tuple[int, str]], str]] = {
    "sim": (("NAME",), RUN_OPTIONS, "runs a schedule: prints start, end and partner of each operation"),
    "waits": (("NAME",), RUN_OPTIONS, "runs a schedule: prints how long its operations wait"),
    "knots": (("NAME",), RUN_OPTIONS, "runs a schedule: prints which operations hold up a hang"),
    "nodes": (("NAME", "MACHINE"), {}, "runs a schedule on a machine with several classes of messages"),
    "compile": (("NAME", "OUT"), {}, "writes the compiled file of a schedule"),
    "show": (("NAME",), {}, "prints the canonical text of a schedule"),
    "gen": (("KIND", "RANKS", "BYTES"), ROOT_OPTION, "prints the schedule of a collective"),
    "certify": (("KIND", "NAME"), ROOT_OPTION, "decides whether a schedule implements a collective"),
    "probe": (("ROUNDS", "SEED"), RUN_OPTIONS, "runs a schedule of 64 ranks that is drawn from SEED"),
}
# The limits of the arguments that are numbers.
NUMBERS: Dict[str, Tuple[int, int, str]] = {
    "RANKS": (1, MOST_RANKS, "ranks"), "BYTES": (0, MOST_BYTES, BYTES), "ROUNDS": (1, MOST_ROUNDS, "rounds"), "SEED": (0, MOST_SEED, "a seed")}
READ = ("NAME", "MACHINE")
STANDARD_INPUT = "/dev/stdin"
# By the number of the word that names a device, a file with the bytes read from the device.
Copies = Mapping[int, str]
# The first bytes of files of other kinds, each with the explanation.
MARKS = ((b"\xef\xbb\xbf", "begins with a byte-order mark: save it as UTF-8 without one"), (b"\xff\xfe", "is UTF-16: save it as UTF-8"),
         (b"\xfe\xff", "is UTF-16: save it as UTF-8"), (b"\x1f\x8b", "is packed by gzip: unpack it first"),
         (b"PK\x03\x04", "is a zip file: unpack it first"))
DESCRIBES = (b"class", b"nodes", b"node", b"groups", b"group", b"inside", b"between", b"across", b"pair", b"oneway")
LONGEST = 40


def form_of(command: str) -> str:
    """The usage line of a command."""
    plain, options, _ = COMMANDS[command]
    optional = " ".join(f"[{name} N]" for name in options)
    return f"goal {command} {' '.join(plain)}" + (f" {optional}" if optional else "")


def shown(word: str) -> str:
    """A word as messages show it: in quotes if it is empty or has blanks, cut if it is long."""
    cut = word if len(word) <= LONGEST else word[:LONGEST] + ".."
    return cut if re.fullmatch(r"[!-~]+", cut) else repr(cut)


def commands() -> List[str]:
    """The list of commands, in ten lines."""
    width = max(len(f"{name} {' '.join(plain)}") for name, (plain, _, _) in COMMANDS.items())
    return ["the commands; docs/COMMANDS.md has their options and statuses",
            *(f"  goal {f'{name} ' + ' '.join(plain):{width}}  {what}" for name, (plain, _, what) in COMMANDS.items())]


def version() -> List[str]:
    """The version of the sources; in an installation, the file that `./install` wrote."""
    try:
        with open(VERSION, encoding="utf-8") as file:
            return file.read().splitlines()
    except OSError:
        return [checkout()]


def checkout() -> str:
    """The version of the sources in this checkout."""
    try:
        said = subprocess.run(["git", "-C", TOP, "describe", "--always", "--dirty", "--tags"], capture_output=True, text=True, check=False)
    except OSError:
        return "the sources are in no git checkout that can be asked"
    return f"the sources are {said.stdout.strip()}" if said.returncode == 0 else "the sources are in no git checkout"


def near(word: str, names: Sequence[str]) -> str:
    """The end of a message: a question with the most similar name, or the list of names if none is similar."""
    alike = [name for name in names if name.lower() == word.lower()] or difflib.get_close_matches(word, names, 1, 0.6)
    return f": is it {alike[0]}?" if alike else f": it is one of {' '.join(names)}"


def number_fault(word: str, low: int, high: int, unit: str) -> Optional[str]:
    """What is wrong with a number, or None."""
    what = unit if unit.startswith("a ") else f"in {unit}"
    if re.fullmatch("[0-9]{1,20}", word):
        if low <= int(word) <= high:
            return None
        return f"{word} is not from {low} to {high}, {what}"
    told = f"{shown(word)} is not a number: 1 to 20 digits, {what}"
    rate = re.fullmatch(r"([0-9]{1,7})\.([0-9]{1,3})", word)
    if rate and unit == PER_BYTE:
        return f"{told}; {word} is {int(rate[1])}, with {int(rate[2].ljust(3, '0'))} for its option of ps (--Gp, --Op)"
    large = re.fullmatch("([0-9]{1,9})([KMG])i?B?", word)
    if large and unit == BYTES:
        return f"{told}; {word} is {int(large[1]) * 1024 ** ('KMG'.index(large[2]) + 1)}"
    return told


def line_fault(words: Sequence[str]) -> Optional[str]:
    """What is wrong with a command line, or None if it is valid."""
    if not words:
        return "there is no word"
    if words[0] not in COMMANDS:
        return f"word 1: {shown(words[0])} is not a command{near(words[0], tuple(COMMANDS))}"
    fault = words_fault(words)
    return fault and f"{fault}. The form is: {form_of(words[0])}"


def words_fault(words: Sequence[str]) -> Optional[str]:
    """What is wrong with the arguments and options of a command, or None."""
    names, options, _ = COMMANDS[words[0]]
    plain: List[Tuple[int, str]] = []
    root: Optional[int] = None
    given = set()
    at = 1
    while at < len(words):
        place, word = at + 1, words[at]
        at += 1
        if not word.startswith("-"):
            plain.append((place, word))
            continue
        name, equals, value = word.partition("=")
        if name not in options:
            return f"word {place}: {shown(name)} is not an option of {words[0]}" + (near(name, tuple(options)) if options else ", which has none")
        if name in given:
            return f"word {place}: {name} is given twice"
        given.add(name)
        root = place if name == "--root" else root
        if not equals:
            if at == len(words):
                return f"word {place}: after {name} its number is missing"
            place, value = at + 1, words[at]
            at += 1
        fault = number_fault(value, 0, *options[name])
        if fault:
            return f"word {place}: {fault}"
    return plain_fault(names, plain) or root_fault(plain, root)


def plain_fault(names: Sequence[str], plain: Sequence[Tuple[int, str]]) -> Optional[str]:
    """What is wrong with the arguments without the options, or None."""
    for name, (place, word) in zip(names, plain):
        fault = None
        if name == "KIND" and word not in KINDS:
            swapped = "; give KIND before NAME" if any(other in KINDS for _, other in plain) and "NAME" in names else near(word, KINDS)
            fault = f"{shown(word)} is not a KIND{swapped}"
        elif name in NUMBERS:
            fault = number_fault(word, *NUMBERS[name])
        if fault:
            return f"word {place}: {fault}"
    if len(plain) < len(names):
        return f"{names[len(plain)]} is missing"
    if len(plain) > len(names):
        return f"word {plain[len(names)][0]}: {shown(plain[len(names)][1])} is one word too many"
    return None


def root_fault(plain: Sequence[Tuple[int, str]], root: Optional[int]) -> Optional[str]:
    """What is wrong with --root, or None."""
    if root is not None and plain[0][1] not in ROOTED:
        return f"word {root}: {plain[0][1]} takes no --root: only {' '.join(ROOTED)} do"
    return None


class File(NamedTuple):
    """A file that a command line reads: its argument (NAME or MACHINE), its name, and the path of its bytes."""

    what: str
    name: str
    path: str


def files_of(words: Sequence[str], copies: Copies) -> List[File]:
    """The files that a command line reads."""
    plain = [at for at, word in enumerate(words) if at and not word.startswith("-") and (not words[at - 1].startswith("-") or "=" in words[at - 1])]
    return [File(what, words[at], copies.get(at, words[at])) for what, at in zip(COMMANDS[words[0]][0], plain) if what in READ]


def reading_fault(files: Sequence[File]) -> Optional[str]:
    """Why one of the files cannot be read, or None."""
    for _, name, path in files:
        try:
            with open(os.open(path, os.O_RDONLY | os.O_NONBLOCK), "rb") as file:
                if stat.S_ISDIR(os.fstat(file.fileno()).st_mode):
                    return f"{shown(name)} is a folder"
        except OSError as why:
            reasons = {errno.ENOENT: "is not there", errno.EACCES: "cannot be read: permission denied", errno.EISDIR: "is a folder", errno.ENOTDIR: "is below a file, which is not a folder"}
            if path == STANDARD_INPUT:
                return "standard input is closed"
            return f"{shown(name)} {reasons.get(why.errno or 0, f'cannot be read: {why.strerror}')}"
        except ValueError:
            return f"{name!r} is not the name of a file"
    return None


def is_read_once(file: File) -> bool:
    """Whether the file exists but is not a plain file, so that it can be read only once."""
    try:
        return not stat.S_ISREG(os.stat(file.path).st_mode)
    except OSError:
        return False


def content_of(file: File) -> Optional[bytes]:
    """The bytes of a file if it can be read again, else None."""
    try:
        if is_read_once(file):
            return None
        with open(file.path, "rb") as opened:
            return opened.read(MOST_INPUT + 1)
    except OSError:
        return None


def place_of(name: str, text: bytes, byte: int) -> str:
    """The line and column of a byte, and the word at it."""
    start = text.rfind(b"\n", 0, byte) + 1
    column = len(text[start:byte].decode("utf-8", "replace")) + 1
    found = re.match(rb"[A-Za-z0-9_]+|[^ \t\r\n]", text[byte:byte + 200])
    word = shown(found[0].decode("utf-8", "replace")) if found else "the end" if byte >= len(text) else "a blank"
    return f"{shown(name)}:{text.count(bytes([10]), 0, byte) + 1}:{column}: here is {word}"


def odd_content(what: str, name: str, text: bytes) -> Optional[str]:
    """A message if the file is clearly of another kind; else None."""
    words = text.split(None, 1)[:1]
    first = words[0] if words else b""
    for mark, told in MARKS:
        if text.startswith(mark):
            return f"{shown(name)} {told}"
    if not text:
        return f"{shown(name)} is empty"
    lines = (line.split(b"#", 1)[0].split() for line in text[:4096].split(b"\n"))
    said = next((line[0] for line in lines if line), b"")
    if first == b"classes" and what == "NAME":
        return f"{shown(name)} is a MACHINE: give the schedule first, then the MACHINE"
    if said in DESCRIBES:
        return f"{shown(name)} is a description: `tools/machine {shown(name)}` writes the MACHINE"
    if first == b"num_ranks" and what == "MACHINE":
        return f"{shown(name)} is a schedule: give it before the MACHINE"
    return None


def refusal_fault(files: Sequence[File], said: str) -> Optional[str]:
    """An explanation of a refusal, or None. `said` is the line that the program printed."""
    gone = next((file for file in files if is_read_once(file)), None)
    if gone:
        how = "came through a pipe" if stat.S_ISFIFO(os.stat(gone.path).st_mode) else "is a device"
        return f"{shown(gone.name)} {how} and cannot be read again: save it in a file to see where the fault is"
    found = re.search(r"refused: (text|file|plan|machine|generator|budget)\b:? ?(.*)", said)
    if not found:
        return None
    kind, rest = found[1], found[2]
    if kind == "generator":
        return {"power of two": "an allreduce has 1, 2, 4, 8 .. ranks; tools/schedule writes allreduces of any number",
                "root": "the root is less than RANKS"}.get(rest, f"it is made for at most {rest.split()[-1]} ranks")
    if kind == "budget":
        return "the times, sizes and costs are so large that a run could last 2^63 ns or more"
    what = "MACHINE" if kind == "machine" else "NAME"
    file = next((file for file in files if file.what == what), None)
    text = content_of(file) if file is not None else None
    if file is None or text is None:
        return None
    name = file.name
    if kind == "plan":
        return operation_of(name, text, rest)
    if kind == "machine" and rest.startswith("ranks"):
        return f"{shown(name)} has nodes for {rest.split()[-1]} ranks, and the schedule has another number of ranks"
    byte = re.search(r" at (\d+)$", rest)
    odd = odd_content(what, name, text) if not byte or int(byte[1]) < 8 else None
    if odd or not byte:
        return odd
    places = [word.start() for word in re.finditer(rb"[^ \t\r\n]+", text)] + [len(text)] if kind == "machine" else []
    at = places[min(int(byte[1]), len(places) - 1)] if places else int(byte[1])
    return place_of(name, text, at) if kind != "file" else f"{shown(name)} is a compiled file"


def operation_of(name: str, text: bytes, rest: str) -> Optional[str]:
    """The place in the text of the operation, dependency or note that a refusal names, or None."""
    found = re.fullmatch(r"(peer|cycle|dependency|note) (\d+) (\d+)", rest)
    if not found or text.startswith(b"\x89"):
        return None
    from common.places import OPERATION, Places
    kind = found[1] if found[1] in ("dependency", "note") else OPERATION
    return Places(name, text).told(int(found[2]), int(found[3]), kind)


def explain(words: Sequence[str], status: int, said: str = "", copies: Copies = {}) -> List[str]:
    """The lines to add if the program ended with this status. `said` is the line that it printed for a refusal."""
    if status == BAD_LINE and (not words or words[0] in ("--help", "-h", "help")):
        return commands()
    if status == BAD_LINE and words[0] in ("--version", "-V", "version"):
        return version()
    fault = None
    if status == BAD_LINE:
        fault = line_fault(words)
    elif status == READ_FAULT:
        fault = reading_fault(files_of(words, copies))
    elif status == REFUSED:
        fault = refusal_fault(files_of(words, copies), said)
    return [fault] if fault else []


def is_wanted() -> bool:
    """Whether explanations are wanted: a person reads standard error, or GOAL_EXPLAIN=1 is set."""
    return os.environ.get("GOAL_EXPLAIN") == "1" or os.isatty(2)


def say(lines: Sequence[str]) -> None:
    """Writes lines on standard error; ignores failures."""
    try:
        os.write(2, b"".join(os.fsencode(f"{line if line.startswith('  ') else f'goal: {line}'}\n") for line in lines))
    except OSError:
        pass


def said_again(program: str, words: Sequence[str], copies: Copies) -> str:
    """The line that the program prints for a refusal, from a second run. Empty if an input cannot be read again."""
    if any(is_read_once(file) for file in files_of(words, copies)):
        return ""
    how = None if STANDARD_INPUT in words else subprocess.DEVNULL
    ended = subprocess.run(called(program, words, copies), stdin=how, stdout=subprocess.DEVNULL, stderr=subprocess.PIPE, check=False, close_fds=False)
    return ended.stderr.decode("utf-8", "replace").strip()


def called(program: str, words: Sequence[str], copies: Copies) -> List[str]:
    """The words of a call of the program, with copies instead of devices."""
    return [program, *(copies.get(at, word) for at, word in enumerate(words))]


def explain_ended(program: str, words: Sequence[str], status: int, copies: Copies = {}) -> None:
    """Adds the explanation for a program that has ended."""
    said = said_again(program, words, copies) if status == REFUSED and words and words[0] in COMMANDS else ""
    say(explain(words, status, said, copies))


def become(program: str, words: Sequence[str], copies: Copies = {}) -> NoReturn:
    """Becomes the program (exec). If explanations are wanted, it instead runs the program, and explains a failure."""
    if not is_wanted():
        os.execv(program, called(program, words, copies))
    status = subprocess.run(called(program, words, copies), check=False, close_fds=False).returncode
    if status in EXPLAINED:
        explain_ended(program, words, status, copies)
    sys.exit(status if status >= 0 else 128 - status)


if __name__ == "__main__":
    explain_ended(sys.argv[1], sys.argv[3:], int(sys.argv[2]))
