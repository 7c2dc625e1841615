"""Work in several processes, of which one may end without ending the others."""

from __future__ import annotations

import os
import pickle
import select
import signal
import traceback
from collections.abc import Callable, Iterator
from typing import BinaryIO, Optional

from elfmap._findings import Report, Unread

Work = Callable[[list[bytes]], Report]
# Makes what a process works with, once in each of them.
Tools = Callable[[], Work]


class Worker:
    """A process that reads lists of paths, and writes a report for each."""

    def __init__(self, tools: Tools, others: list[Worker]) -> None:
        task_out, task_in = os.pipe()
        report_out, report_in = os.pipe()
        self.pid = os.fork()
        if not self.pid:
            for it in others:
                it.close()
            os.close(task_in)
            os.close(report_out)
            _serve(tools, os.fdopen(task_out, "rb"), os.fdopen(report_in, "wb"))
        os.close(task_out)
        os.close(report_in)
        self.tasks: BinaryIO = os.fdopen(task_in, "wb")
        self.reports: BinaryIO = os.fdopen(report_out, "rb")
        self.paths: list[bytes] = []

    def give(self, paths: list[bytes]) -> None:
        self.paths = paths
        try:
            pickle.dump(paths, self.tasks, pickle.HIGHEST_PROTOCOL)
            self.tasks.flush()
        except BrokenPipeError:
            pass  # It has ended: so its report does too.

    def report(self) -> Optional[Report]:
        """Its report, None if it has ended."""
        try:
            found = pickle.load(self.reports)
        except (EOFError, pickle.UnpicklingError):
            return None
        return found if isinstance(found, Report) else None

    def close(self) -> None:
        for it in (self.tasks, self.reports):
            try:
                it.close()
            except BrokenPipeError:
                pass  # What it was given last is still in the buffer.

    def end(self) -> int:
        """Closes its tasks, waits for its end, and returns the signal that ended it."""
        self.close()
        _, status = os.waitpid(self.pid, 0)
        return os.WTERMSIG(status) if os.WIFSIGNALED(status) else 0


def _serve(tools: Tools, tasks: BinaryIO, reports: BinaryIO) -> None:
    """Works until there are no tasks, and ends the process."""
    status = 1
    try:
        signal.signal(signal.SIGINT, signal.SIG_DFL)
        work = tools()
        while True:
            pickle.dump(work(pickle.load(tasks)), reports, pickle.HIGHEST_PROTOCOL)
            reports.flush()
    except (EOFError, BrokenPipeError):
        status = 0
    except Exception:
        traceback.print_exc()
    finally:
        os._exit(status)


class Pool:
    """Gives lists of paths to as many workers as there are, until there are none left."""

    def __init__(self, tools: Tools, count: int, done: Callable[[Report], None]) -> None:
        self._tools = tools
        self._done = done
        self._workers: dict[int, Worker] = {}
        self._poll = select.poll()
        self._count = count
        self._again: list[list[bytes]] = []

    def run(self, tasks: Iterator[list[bytes]]) -> None:
        try:
            while self._fill(tasks):
                for handle, _ in self._poll.poll():
                    self._answer(self._workers[handle], tasks)
        finally:
            for worker in list(self._workers.values()):
                self._drop(worker)

    def _next(self, tasks: Iterator[list[bytes]]) -> Optional[list[bytes]]:
        if self._again:
            return self._again.pop()
        return next(tasks, None)

    def _fill(self, tasks: Iterator[list[bytes]]) -> bool:
        """Starts workers while there are tasks for them. Whether there is one at work."""
        while len(self._workers) < self._count:
            paths = self._next(tasks)
            if paths is None:
                break
            worker = Worker(self._tools, list(self._workers.values()))
            self._workers[worker.reports.fileno()] = worker
            self._poll.register(worker.reports.fileno(), select.POLLIN)
            worker.give(paths)
        return bool(self._workers)

    def _answer(self, worker: Worker, tasks: Iterator[list[bytes]]) -> None:
        report = worker.report()
        if report is None:
            self._lost(worker, self._drop(worker))
            return
        self._done(report)
        paths = self._next(tasks)
        if paths is None:
            self._drop(worker)
        else:
            worker.give(paths)

    def _lost(self, worker: Worker, number: int) -> None:
        """The paths of a worker that has ended are tried again, each by itself."""
        if len(worker.paths) > 1:
            self._again += [[it] for it in worker.paths]
            return
        reason = "the check of it failed"
        if number:
            reason = f"the process that checked it ended by signal {number}"
        self._done(Report(unreadable=[Unread(it, reason) for it in worker.paths]))

    def _drop(self, worker: Worker) -> int:
        handle = worker.reports.fileno()
        self._poll.unregister(handle)
        del self._workers[handle]
        return worker.end()
