"""What asks many volumes: this process, a pool of processes, or the workers of a Dask scheduler.

Each takes tasks one after another and answers them in any order, a few at a time, so that memory doesn't grow with the archive. A volume whose
worker dies is asked again; one over which workers die again and again gets an answer with that fault.
"""

from __future__ import annotations

import importlib
import os
import signal
import threading
from collections.abc import Generator, Iterable, Iterator
from concurrent.futures import FIRST_COMPLETED, Future, ProcessPoolExecutor, wait
from concurrent.futures.process import BrokenProcessPool
from contextlib import contextmanager
from itertools import islice
from multiprocessing import get_context, parent_process
from typing import Any, Protocol

from . import __version__
from .answers import Answer, Task
from .asking import ask
from .program import Way

#: So many tasks for each worker are under way or wait for it.
AHEAD = 4
#: A task over which so many workers died that had nothing else to do is given up.
DEATHS = 2
DIED = "the process that asked it died"


class Engine(Protocol):
    """What asks many volumes."""

    @property
    def name(self) -> str:
        """What the log of scans calls it."""

    def answers(self, tasks: Iterable[Task], way: Way) -> Iterator[Answer]:
        """The answers to tasks, in any order."""


class BadEngine(Exception):
    """An engine can't be used; the text says why."""


def given_up(task: Task) -> Answer:
    """The answer to a task over which workers died."""
    return Answer(task, faults=[("ask", DIED)])


class Alone:
    """This process."""

    name = "1 process"

    def answers(self, tasks: Iterable[Task], way: Way) -> Iterator[Answer]:
        """One after another."""
        for task in tasks:
            yield ask(task, way)


def begin_worker() -> None:
    """A worker leaves interruptions to the process that started it, and ends when that does, however it does."""
    signal.signal(signal.SIGINT, signal.SIG_IGN)

    def follow() -> None:
        parent = parent_process()
        if parent is not None:
            parent.join()
            os._exit(1)

    threading.Thread(target=follow, daemon=True).start()


@contextmanager
def workers(processes: int) -> Iterator[ProcessPoolExecutor]:
    """So many workers; at the end what they have not begun is let go."""
    executor = ProcessPoolExecutor(processes, get_context("spawn"), begin_worker)
    try:
        yield executor
    finally:
        executor.shutdown(wait=True, cancel_futures=True)


class Pool:
    """A pool of processes of this machine."""

    def __init__(self, processes: int) -> None:
        self.processes = processes
        self.name = f"{processes} processes"

    def answers(self, tasks: Iterable[Task], way: Way) -> Iterator[Answer]:
        """Side by side. What was under way when a worker died is asked once more, one by one, so that it is seen over which of them workers die."""
        left = iter(tasks)
        while True:
            lost = yield from self._side_by_side(left, way)
            if not lost:
                return
            for task in lost:
                yield self._by_itself(task, way)

    def _side_by_side(self, tasks: Iterator[Task], way: Way) -> Generator[Answer, None, list[Task]]:
        """Answers tasks until there are none, or until a worker dies; those that were lost then."""
        lost: list[Task] = []
        with workers(self.processes) as executor:
            under_way: dict[Future[Answer], Task] = {}
            for task in islice(tasks, self.processes * AHEAD):
                under_way[executor.submit(ask, task, way)] = task
            while under_way:
                done, _ = wait(under_way, return_when=FIRST_COMPLETED)
                for future in done:
                    task = under_way.pop(future)
                    try:
                        yield future.result()
                    except BrokenProcessPool:
                        lost.append(task)
                for task in islice(tasks, 0 if lost else len(done)):
                    try:
                        under_way[executor.submit(ask, task, way)] = task
                    except BrokenProcessPool:
                        lost.append(task)
        return lost

    def _by_itself(self, task: Task, way: Way) -> Answer:
        """Asks a task by a worker of its own."""
        for _ in range(DEATHS):
            with workers(1) as executor:
                try:
                    return executor.submit(ask, task, way).result()
                except BrokenProcessPool:
                    continue
        return given_up(task)


def version_here() -> str:
    """The version of this package, where a worker has it."""
    return __version__


class Dask:
    """The workers of a Dask scheduler. They see the files by the same paths, and have this package and `dasd` in the same version."""

    def __init__(self, address: str) -> None:
        self.address = address
        self.name = "Dask"
        try:
            self.distributed: Any = importlib.import_module("distributed")
        except ImportError as fault:
            raise BadEngine(f"Dask is not here (Debian's python3-distributed): {fault}") from fault

    def answers(self, tasks: Iterable[Task], way: Way) -> Iterator[Answer]:
        """By all workers that there are. Where one dies the scheduler gives its tasks to others; a task over which several died is given up."""
        try:
            client = self.distributed.Client(self.address, set_as_default=False)
        except (OSError, ValueError, TypeError) as fault:  # a TypeError where there are no keys for TLS
            raise BadEngine(f"no scheduler answers at {self.address}: {fault}") from fault
        with client:
            self._examine(client)
            yield from self._answers(client, iter(tasks), way)

    def _examine(self, client: Any) -> None:
        """Looks whether there are workers, all with this version."""
        versions: dict[str, Any] = client.run(version_here, on_error="return")
        others = sorted(f"{address}: {it}" for address, it in versions.items() if it != __version__)
        if others:
            raise BadEngine(f"workers without this version of the package, {__version__}: {', '.join(others)}")
        if not versions:
            raise BadEngine(f"the scheduler at {self.address} has no workers")

    def _answers(self, client: Any, tasks: Iterator[Task], way: Way) -> Iterator[Answer]:
        """Keeps so many tasks under way, and answers those that are done."""
        threads = sum(client.nthreads().values())
        under_way: dict[str, Task] = {}

        def submit(count: int) -> list[Any]:
            futures = []
            for task in islice(tasks, count):
                future = client.submit(ask, task, way, pure=False)
                under_way[future.key] = task
                futures.append(future)
            return futures

        done = self.distributed.as_completed(submit(AHEAD * max(1, threads)), loop=client.loop)
        for future in done:
            task = under_way.pop(future.key)
            try:
                answer: Answer = future.result()
            except self.distributed.KilledWorker:
                answer = given_up(task)
            except Exception as fault:
                raise BadEngine(f"a worker could not ask: {type(fault).__name__}: {fault}") from fault
            future.release()
            done.update(submit(1))
            yield answer


def engine_for(processes: int, scheduler: str) -> Engine:
    """The engine that is asked for: so many processes, or the scheduler at an address."""
    if scheduler:
        return Dask(scheduler)
    if processes > 1:
        return Pool(processes)
    return Alone()
