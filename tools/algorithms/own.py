"""Algorithms of users: functions in Python files that make plans. A mistake in such a file is reported with its line.
Nothing of it is proved."""
import contextlib
import inspect
import os
import re
import sys
import types
from typing import Any, Callable, Iterator, Optional, Tuple

from algorithms.collectives import Wish
from algorithms.plan import Plan
from common import command
from common.command import Fault

WORD = re.compile(r"(.+\.py):(\w+)")
FIRST = ("ranks", "size")
OPTIONS = ("root", "segments", "node", "sum_ps")


def is_own(word: str) -> bool:
    """Whether a word names an algorithm as FILE.py:NAME."""
    return WORD.fullmatch(word) is not None


def own_algorithm(word: str) -> Tuple[Callable[[Wish], Plan], Tuple[str, ...]]:
    """The algorithm FILE.py:NAME, and the options that its function takes."""
    found = WORD.fullmatch(word)
    if found is None:
        raise Fault(f"{word}: write FILE.py:NAME")
    path, name = found.groups()
    source = command.read_file(path).decode("utf-8", "replace")
    with faults_of(path):
        function: Any = getattr(loaded(path, source), name, None)
    if not callable(function):
        raise Fault(f"{path} has no function {name}")
    options = options_of(path, name, function)

    def make(wish: Wish) -> Plan:
        given = {option: getattr(wish, option) for option in options}
        with faults_of(path):
            plan = function(wish.ranks, wish.size, **given)
        if not isinstance(plan, Plan):
            raise Fault(f"{path}: {name} returns {type(plan).__name__}: it has to return the Plan")
        return plan

    return make, options


def loaded(path: str, source: str) -> types.ModuleType:
    """Imports a file as a module. Its folder is searched for imports, and no compiled file is written there."""
    module = types.ModuleType(os.path.splitext(os.path.basename(path))[0])
    module.__file__ = path
    sys.path.append(os.path.dirname(os.path.abspath(path)))
    sys.dont_write_bytecode = True
    # (data classes, for example, look up their module by name)
    sys.modules.setdefault(module.__name__, module)
    exec(compile(source, path, "exec"), module.__dict__)
    return module


def options_of(path: str, name: str, function: Callable[..., Any]) -> Tuple[str, ...]:
    """The options that a function takes after `ranks` and `size`, by the names of its parameters."""
    line = getattr(getattr(function, "__code__", None), "co_firstlineno", None)
    where = f"{path}:{line}" if line else path
    try:
        names = list(inspect.signature(function).parameters)
    except (TypeError, ValueError):
        raise Fault(f"{where}: {name} is not a function") from None
    if tuple(names[:2]) != FIRST:
        raise Fault(f"{where}: {name} has to begin with the parameters `ranks` and `size`")
    for other in names[2:]:
        if other not in OPTIONS:
            raise Fault(f"{where}: {name} takes {other!r}: after ranks and size an algorithm can take {', '.join(OPTIONS)}")
    return tuple(names[2:])


@contextlib.contextmanager
def faults_of(path: str) -> Iterator[None]:
    """Reports an error in a file with the last line of the file that was reached. What the file prints goes to
    standard error."""
    try:
        with contextlib.redirect_stdout(sys.stderr):
            yield
    except SyntaxError as error:
        where = f"{error.filename}:{error.lineno}"
        raise Fault(f"{where}: {error.msg}") from None
    except (Exception, SystemExit) as error:
        line = line_in(path, error.__traceback__)
        what = str(error) if isinstance(error, Fault) else f"{type(error).__name__}: {error}"
        raise Fault(f"{path}{f':{line}' if line else ''}: {one_line(what)}") from None


def line_in(path: str, trace: Optional[types.TracebackType]) -> Optional[int]:
    """The line of a file that was reached last."""
    line = None
    while trace is not None:
        if trace.tb_frame.f_code.co_filename == path:
            line = trace.tb_lineno
        trace = trace.tb_next
    return line


def one_line(text: str) -> str:
    return " ".join(text.split())
