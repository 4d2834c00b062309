"""prove.py LOCK: proves the program and every crate that it uses, and builds it. `answer.py` starts it in the
background.

LOCK is the descriptor of an open file that holds the lock of this checkout. Standard output is the log, with lines that
report the progress.

It proves the libraries in parallel, without their tests, as cores and memory allow. The crate with the longest chain of
crates that depend on it comes first, and a crate gets more jobs if cores are idle. There are two ways to build a library:

- If at most half of the libraries have kept work, each is built with its statements and without its proofs, as `rt ci`
  builds it. The crates above then load less.
- Otherwise functions of rt build the libraries over the kept work. They run in this process, since two commands `rt lib`
  would wait for one another.

Nothing of this is proved."""
from __future__ import annotations

import contextlib
import hashlib
import importlib.machinery
import importlib.util
import json
import os
import shutil
import signal
import subprocess
import sys
import tempfile
import threading
import time
from concurrent.futures import FIRST_COMPLETED, Future, ThreadPoolExecutor, wait
from typing import Any, Callable

import sources
from sources import BEGUN, PROGRAM, PROOF, TOP, put, text_of

# The module of the kit's command rt, and the crates of that module. Their types are not known here.
Kit = Any
Crate = Any

# The folder that has, for each library, from what its statements were built.
STATEMENTS = f"{PROOF}/statements"
# The digest of sources whose proof failed, the kit, and why it failed.
FAILED = f"{PROOF}/failed"
# A check with more jobs than this is seldom faster.
MOST_JOBS = 4
# The `nice` value of the proof: at 10, a process that shares a core with the proof gets nine tenths of the core.
NICE = 10
# As measured: a check with one job takes this share of the memory that rt plans for it, and each additional job takes this
# share of what one job takes.
MEMORY_OF_A_CHECK, MEMORY_OF_A_JOB = 0.6, 0.5
FAILING = threading.Lock()


def seconds(crates: list[Crate]) -> dict[str, float]:
    """By name, the estimated seconds that the proof of a crate takes on one core, from a fit to thirty measured
    crates."""
    lines = {it.name: it.count(rb"\n") for it in crates}
    return {it.name: 5 + lines[it.name] / 16 + sum(lines[dep.name] for dep in it.below()) / 500 for it in crates}


def critical_paths(crates: list[Crate]) -> dict[str, float]:
    """By name, the estimated seconds for the proof of a crate and of the longest chain of crates that depend on it."""
    found = seconds(crates)
    for crate in sorted(crates, key=lambda it: -len(it.below())):
        above = [it for it in crates if crate in it.deps]
        found[crate.name] += max((found[it.name] for it in above), default=0)
    return found


def in_parallel(crates: list[Crate], prove: Callable[[Crate, int], bool], cores: int, memory: float, need: Callable[[Crate], float]) -> bool:
    """Calls prove(crate, jobs) for each crate after the crates that it uses, in parallel. Whether all calls return
    True.

    Crates with the longest critical path come first. Those that can start share the idle cores. The crates that run at
    the same time must fit into the memory. After a failure no other crate is started."""
    lengths, is_well = critical_paths(crates), True
    running: dict[Future[bool], tuple[Crate, int, float]] = {}
    proved: set[str] = set()
    left = sorted(crates, key=lambda it: -lengths[str(it.name)])
    needs = {it.name: MEMORY_OF_A_CHECK * need(it) for it in crates}
    with ThreadPoolExecutor(cores) as pool:
        while True:
            ready = [it for it in left if is_well and all(dep.name in proved for dep in it.deps)]
            for at, crate in enumerate(ready):
                idle = cores - sum(jobs for _, jobs, _ in running.values())
                room, one = memory - sum(taken for _, _, taken in running.values()), needs[crate.name]
                if idle < 1 or running and one > room:
                    break
                fitting = 1 + int((room / one - 1) / MEMORY_OF_A_JOB)
                jobs = max(1, min(MOST_JOBS, idle // (len(ready) - at), fitting))
                running[pool.submit(prove, crate, jobs)] = crate, jobs, one * (1 + MEMORY_OF_A_JOB * (jobs - 1))
                left.remove(crate)
            if not running:
                return is_well
            for done in wait(running, return_when=FIRST_COMPLETED).done:
                crate, _, _ = running.pop(done)
                proved.add(crate.name)
                is_well = done.result() and is_well


def kit() -> Kit:
    """The kit's command rt, as a module."""
    path = os.path.realpath(shutil.which("rt") or "rt")
    loader = importlib.machinery.SourceFileLoader("rt", path)
    spec = importlib.util.spec_from_loader("rt", loader)
    assert spec
    found = importlib.util.module_from_spec(spec)
    loader.exec_module(found)
    return found


class Log:
    """The log of the proof, which gets the lines of one crate at a time."""

    def __init__(self, count: int) -> None:
        self.count, self.proved, self.start, self.alone = count, 0, time.time(), threading.Lock()
        print(f"goal: {count} crates to prove", flush=True)

    def add(self, name: str, said: str, is_proved: bool) -> None:
        """Adds the output for a crate, and a line that reports the progress."""
        with self.alone:
            self.proved += is_proved
            taken = int(time.time() - self.start)
            print(said, end="" if said.endswith("\n") or not said else "\n")
            what = f"{self.proved} of {self.count} crates proved after {taken // 60} min {taken % 60} s"
            print(f"goal: {what}: {name}" if is_proved else f"goal: {name} is not proved", flush=True)


def fail(why: str) -> None:
    """Records why there is no proof of these sources, for this call and the next ones."""
    with FAILING:
        put(FAILED, "\n".join([*text_of(BEGUN).split("\n")[:2], why]))


def made_from(rt: Kit, crate: Crate) -> str:
    """A text that identifies what a library was built from and the result: the stamp of its sources, and the digests of
    the libraries that it uses and of itself."""
    return "\n".join([crate.stamp(), *(rt.rtlib.sum_of(f"{it.rlib}/format") for it in [*crate.below(), crate])])


def build_statements(rt: Kit, crate: Crate, jobs: int) -> int:
    """Proves a library and builds its statements, which the crates above load. Returns the exit status of the check."""
    kept, stamp = f"{STATEMENTS}/{crate.name}", crate.stamp()
    if crate.is_built() or text_of(kept) == made_from(rt, crate):
        return 0
    shutil.rmtree(os.path.dirname(crate.rlib), ignore_errors=True)
    os.makedirs(os.path.dirname(crate.rlib))
    words = crate.words(["--jobs", f"{jobs}"], keeps=False)
    status: int = crate.call(rt.rtlib.RATTLE, "build", *words, "--statements", "-o", crate.rlib)
    if status == 0 and stamp == crate.stamp():
        os.makedirs(STATEMENTS, exist_ok=True)
        with open(kept, "w", encoding="utf-8") as file:
            file.write(made_from(rt, crate))
    return status


def prove_libraries(rt: Kit, log: Log, crates: list[Crate], keeps: bool) -> bool:
    """Proves and builds the libraries: over the kept work (`keeps`), or from scratch. Whether all are proved."""

    def prove(crate: Crate, jobs: int) -> bool:
        status = 1
        with tempfile.TemporaryFile("w+", errors="replace") as crate.out:
            try:
                status = crate.build_rlib(["--jobs", f"{jobs}"], anew=False) if keeps else build_statements(rt, crate, jobs)
            except SystemExit:
                pass
            crate.out.seek(0)
            log.add(crate.name, f"== {crate.name} (--jobs {jobs})\n{crate.out.read()}", status == 0)
        if status:
            fail(f"{crate.name} (rt says {status})")
        return status == 0

    return in_parallel(crates, prove, rt.processors(), 0.85 * rt.free(), rt.need)


def build_program(rt: Kit, log: Log, program: Crate, locks: list[int], keeps: bool) -> bool:
    """Proves, builds and runs the program. Whether this succeeds. The processes that it starts end with this one."""
    print(f"== {program.name}", flush=True)
    # (the locks are released before the program runs)
    jobs, words, program.held = ["--jobs", f"{MOST_JOBS}"], ["sim", "data/a"], locks
    if keeps:
        for it in locks:
            os.close(it)
        how: dict[str, Any] = {"stdin": subprocess.DEVNULL, "stderr": subprocess.STDOUT, "cwd": program.folder}
        status = subprocess.run([*rt.rtlib.guarded(), "rt", "run", *jobs, "--", *words], **how).returncode
    else:
        status = program.build_and_run(jobs, words, False)
    if status == 0 and os.access(PROGRAM, os.X_OK):
        log.add(program.name, "", True)
        if not sources.end():
            print("goal: a source was touched during the proof, so the next call proves the sources as they are then", flush=True)
        return True
    fail(f"{program.name} (rt run ended with {status})")
    return False


def take_from_gate() -> bool:
    """Whether `rt ci` proved the existing program from the current sources. If so, it records that.

    `rt ci` keeps each result under a key, a digest of all that it was made from. It also keeps the digests of the files
    that it made; those of a library are part of the keys of the crates above. So this compares contents, and no
    times."""
    try:
        begun, rt = sources.state(), kit()
        with open(os.devnull, "w", encoding="utf-8") as nothing, contextlib.redirect_stderr(nothing):
            rt.Crate.allowed = rt.handles_of(TOP)
            program = next(it for it in rt.crates_of(TOP) if it.is_program)
        return is_kept(rt, program) and sources.record(begun.strip())
    except (OSError, SystemExit, AttributeError, LookupError, TypeError, ValueError, StopIteration):
        # (another kit may keep its results differently; the program is then proved again)
        return False


def is_kept(rt: Kit, program: Crate) -> bool:
    """Whether `rt ci` has kept a proof of the current sources that made the existing program."""
    kept, files = rt.Kept([]), {}
    for crate in [*program.below(), program]:
        key = kept.key(crate)
        with open(f"{kept.place(crate, False, key)}/made.json", encoding="utf-8") as file:
            made = json.load(file)
        if made["key"] != key:
            return False
        files = dict(made["files"])
        kept.rlibs[crate.name] = hashlib.sha256(repr(list(files.items())).encode()).hexdigest()
    return files.get(program.name) == sources.sum_of(PROGRAM)


def prove(rt: Kit) -> bool:
    """Proves the program and the crates that it uses, and builds it. Whether this succeeds."""
    # (crates that the program does not use, such as those with only laws, are left to `rt ci`)
    program = next(it for it in rt.rtlib.crates_below(TOP) if it.is_program)
    libraries = program.below()
    log = Log(len(libraries) + 1)
    rt.rtlib.guarded()
    # (in kits before 13f, checkouts cannot share work)
    if hasattr(rt, "share_work"):
        rt.share_work(True)
    locks = rt.rtlib.lock([*libraries, program])
    keeps = 2 * sum(it.has_kept() for it in libraries) > len(libraries)
    return prove_libraries(rt, log, libraries, keeps) and build_program(rt, log, program, locks, keeps)


def give_way() -> None:
    """Lowers the priority of the proof, so that an answer from the sources and all other work goes first."""
    os.nice(NICE)
    # (a kernel with autogroups weighs whole sessions, by a separate nice value)
    with contextlib.suppress(OSError), open("/proc/self/autogroup", "w", encoding="ascii") as file:
        file.write(f"{NICE}")


def main(lock: int) -> int:
    os.set_inheritable(lock, False)
    give_way()
    signal.signal(signal.SIGHUP, signal.SIG_IGN)
    try:
        return 0 if prove(kit()) else 1
    except SystemExit:
        fail("rt stopped")
    except Exception as error:
        fail(f"{type(error).__name__}: {error}")
        raise
    return 1


if __name__ == "__main__":
    sys.exit(main(int(sys.argv[1])))
