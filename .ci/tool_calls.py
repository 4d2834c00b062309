"""Calls tools from their tests. Nothing of it is proved.

Each call runs in a fork of the test's process, so that Python does not start and import anew each time. The tool gets
its words, folder, environment and streams as in a call from a shell."""
from __future__ import annotations

import contextlib
import importlib.util
import os
import subprocess
import sys
import tempfile
import traceback
from functools import lru_cache
from importlib.machinery import SourceFileLoader
from types import ModuleType
from typing import Mapping, NoReturn, Sequence

TOP = os.path.dirname(os.path.dirname(os.path.abspath(__file__)))
TOOLS = os.path.join(TOP, "tools")
sys.path.insert(0, TOOLS)
from common import command, program  # noqa: E402


def called(
    name: str, *words: str, given: str | None = None, cwd: str | None = None, env: Mapping[str, str] | None = None
) -> subprocess.CompletedProcess[str]:
    """Calls a tool with `given` as its standard input."""
    done = called_with_bytes(name, *words, given=(given or "").encode(), cwd=cwd, env=env)
    return subprocess.CompletedProcess(done.args, done.returncode, done.stdout.decode(), done.stderr.decode())


def called_with_bytes(
    name: str, *words: str, given: bytes | None = None, cwd: str | None = None, env: Mapping[str, str] | None = None
) -> subprocess.CompletedProcess[bytes]:
    """The same, with bytes as input and output."""
    module, path = module_of(name), os.path.join(TOOLS, name)
    with tempfile.TemporaryFile() as out, tempfile.TemporaryFile() as err:
        its, ours = os.pipe()
        child = os.fork()
        if child == 0:
            os.close(ours)
            run_tool(module, [path, *words], (its, out.fileno(), err.fileno()), cwd, env)
        os.close(its)
        with contextlib.suppress(BrokenPipeError), open(ours, "wb") as pipe:
            pipe.write(given or b"")
        status = os.waitpid(child, 0)[1]
        out.seek(0)
        err.seek(0)
        code = os.WEXITSTATUS(status) if os.WIFEXITED(status) else -os.WTERMSIG(status)
        return subprocess.CompletedProcess([path, *words], code, out.read(), err.read())


@lru_cache(maxsize=None)
def module_of(name: str) -> ModuleType:
    """The module of a tool."""
    loader = SourceFileLoader(f"tool_{name}", os.path.join(TOOLS, name))
    spec = importlib.util.spec_from_loader(loader.name, loader)
    assert spec is not None
    module = importlib.util.module_from_spec(spec)
    sys.modules[loader.name] = module
    loader.exec_module(module)
    return module


def run_tool(module: ModuleType, words: list[str], streams: Sequence[int], cwd: str | None, env: Mapping[str, str] | None) -> NoReturn:
    """Runs the tool in this process, and ends the process."""
    status = 1
    try:
        for number, stream in enumerate(streams):
            os.dup2(stream, number)
        os.chdir(cwd or ".")
        if env is not None:
            os.environ.clear()
            os.environ.update(env)
        sys.argv = words
        sys.stdin = open(0, encoding="utf-8", closefd=False)
        sys.stdout, sys.stderr = open(1, "w", encoding="utf-8", closefd=False), open(2, "w", encoding="utf-8", closefd=False)
        command.standard_input.cache_clear()
        program.proved.cache_clear()
        program.version.cache_clear()
        command.run(module.main)
    except SystemExit as end:
        status = end.code if isinstance(end.code, int) else 0
    except BaseException:
        traceback.print_exc()
    finally:
        with contextlib.suppress(OSError):
            sys.stderr.flush()
        os._exit(status)
