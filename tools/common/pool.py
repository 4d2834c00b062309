"""A pool of processes that work in parallel and return results in the order of the tasks. Nothing of it is proved.

They end with the process that started them: it terminates them or, if it is killed, they end when their pipe closes.
"""
from __future__ import annotations

import os
import signal
import tempfile
from collections import deque
from multiprocessing import connection, get_context
from multiprocessing.process import BaseProcess
from typing import Callable, Deque, Dict, Generic, Iterable, Iterator, List, Tuple, TypeVar

Task = TypeVar("Task")
Found = TypeVar("Found")
# The number of tasks per process that may be started, counted from the first that is not done.
AHEAD = 256
# The signals that ask a process to end.
STOPS = (signal.SIGINT, signal.SIGTERM, signal.SIGHUP)


class Pool(Generic[Task, Found]):
    """A pool of `jobs` processes that do `work`. If the process of a task is killed, the result of the task is
    `lost`."""

    def __init__(self, work: Callable[[Task], Found], lost: Found, jobs: int, folder: str) -> None:
        self.work, self.lost, self.folder = work, lost, folder
        self.workers: Dict[connection.Connection, BaseProcess] = {}
        self.idle: List[connection.Connection] = []
        self.jobs = jobs

    def _begin(self) -> None:
        """Starts a process that waits for a task."""
        ours, its = connection.Pipe()
        before = [*self.workers, ours]
        words = (self.work, its, before, self.folder)
        worker = get_context("fork").Process(target=serve, args=words, daemon=True)
        signal.pthread_sigmask(signal.SIG_BLOCK, STOPS)
        worker.start()
        signal.pthread_sigmask(signal.SIG_UNBLOCK, STOPS)
        its.close()
        self.workers[ours] = worker
        self.idle.append(ours)

    def map(self, tasks: Iterable[Task]) -> Iterator[Found]:
        """The results of the tasks, in their order. Each is returned as soon as it and all earlier ones exist."""
        rest = iter(enumerate(tasks))
        found: Dict[int, Found] = {}
        order: Deque[int] = deque()
        busy: Dict[connection.Connection, int] = {}
        while True:
            while len(order) < AHEAD * self.jobs and len(busy) < self.jobs:
                one = next(rest, None)
                if one is None:
                    break
                if not self.idle:
                    self._begin()
                pipe = self.idle.pop()
                busy[pipe] = one[0]
                order.append(one[0])
                try:
                    pipe.send(one[1])
                except OSError:
                    pass  # (the process has ended, which is noticed below)
            if not order:
                return
            for pipe, answer in self._answers(list(busy)):
                found[busy.pop(pipe)] = answer
            while order and order[0] in found:
                yield found.pop(order.popleft())

    def _answers(self, pipes: List[connection.Connection]) -> Iterator[Tuple[connection.Connection, Found]]:
        """The results that have arrived. Waits for the first one."""
        for pipe in connection.wait(pipes):
            assert isinstance(pipe, connection.Connection)
            try:
                answer = pipe.recv()
                self.idle.append(pipe)
            except (EOFError, OSError):
                self.workers.pop(pipe).join()
                pipe.close()
                answer = self.lost
            yield pipe, answer

    def end(self) -> None:
        """Ends all processes and the processes that they started."""
        for worker in self.workers.values():
            worker.terminate()
        for worker in self.workers.values():
            worker.join()


def serve(work: Callable[[Task], Found], pipe: connection.Connection, others: List[connection.Connection],
          folder: str) -> None:
    """The main loop of a process of the pool: does tasks until the pipe closes. It ignores interrupts, which the
    process that started it handles."""
    os.setpgid(0, 0)
    signal.signal(signal.SIGINT, signal.SIG_IGN)
    signal.signal(signal.SIGTERM, leave)
    signal.signal(signal.SIGHUP, signal.SIG_IGN)
    signal.pthread_sigmask(signal.SIG_UNBLOCK, STOPS)
    tempfile.tempdir = folder
    for other in others:
        other.close()
    try:
        while True:
            pipe.send(work(pipe.recv()))
    except (EOFError, OSError):
        leave()


def leave(*_: object) -> None:
    """Kills the process group of this process: itself and the processes that it started."""
    os.killpg(0, signal.SIGKILL)
