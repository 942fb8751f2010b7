"""The workers of this machine: as many processes as are asked for, each with one task at work and, while these are small,
a few at hand. What a killed worker held is done again by others. They are not one of the pools that there are because Python's own give up all
tasks when a process is killed, and Dask's LocalCluster is slower to start and for each file.
"""

from __future__ import annotations

import os
import pickle
import select
import signal
import socket
import subprocess
import sys
import threading
import traceback
from collections import deque
from multiprocessing.connection import Connection
from pathlib import Path
from time import monotonic, sleep
from typing import NamedTuple, Protocol

from ..failures import Unusable
from ..threads import ONE_THREAD, is_one_thread
from . import worker
from .outputs import Halt
from .task import Reply, Task
from .workers import Returned

AT_HAND = 4  # tasks that a worker is given at most: more than one so that it need not wait for the next
AT_HAND_BYTES = 2**16  # of their inputs, from which on it is given no other: that would wait behind a large one
PACKAGE = Path(__file__).resolve().parents[2]
ENDING_SECONDS = 5
FIRST_STEP_SECONDS, MOST_STEP_SECONDS = 0.0005, 0.05  # between looks at a process that is to end, twice as long each
MOST_DESCRIPTORS = 65_536
MILLISECONDS = 1000  # of a second


class Process(Protocol):
    """A process of ours, however it was started: as much of `subprocess.Popen` as is used here."""

    pid: int

    def wait(self, timeout: float | None = None) -> int:
        ...

    def kill(self) -> None:
        ...


class Worker(NamedTuple):
    """A worker's process, the connection to it, and the tasks that it holds, oldest first."""

    process: Process
    connection: Connection
    held: deque[Task]

    def is_free(self) -> bool:
        """Whether it can be given another task."""
        size = sum(task.input.size for task in self.held)
        return not self.held or (len(self.held) < AT_HAND and size < AT_HAND_BYTES)


class LocalWorkers:
    """Workers of this machine.

    Parameters
    ----------
    count : int

    Raises
    ------
    Unusable
        If so many can't be started.
    """

    def __init__(self, count: int) -> None:
        self._returned = Returned()
        self._workers: list[Worker] = []
        worker.load()  # once, for all that are copies
        try:
            for _ in range(count):
                self._workers.append(started())
        except OSError as error:
            self.close()
            words = f"Worker {len(self._workers) + 1} of {count} can't be started: {error.strerror or error}."
            raise Unusable(f"{words} Give fewer, with --workers.") from error

    @property
    def killed(self) -> int:
        """How many workers were killed so far."""
        return self._returned.killed

    def has_room(self) -> bool:
        """Whether another task can be given."""
        return not self._returned.again and any(each.is_free() for each in self._workers)

    def is_busy(self) -> bool:
        """Whether a reply is still to come."""
        returned = self._returned
        return bool(returned.replies or returned.again or any(each.held for each in self._workers))

    def give(self, task: Task) -> None:
        """Give a task to the free worker that holds fewest."""
        chosen = min(self._workers, key=lambda each: (not each.is_free(), len(each.held)))
        chosen.held.append(task)
        try:
            chosen.connection.send_bytes(pickle.dumps(task))
        except (BrokenPipeError, ConnectionResetError):
            pass  # it was killed: `take` finds that

    def take(self, seconds: float) -> Reply | None:
        """The next reply, or None where none comes within so many seconds.

        Raises
        ------
        Halt
            If a worker can't go on, and none could.
        """
        if not self._returned.replies:
            ready = self._ready(seconds)
            for place, each in enumerate(self._workers):
                if each.held and each.connection.fileno() in ready:
                    self._receive(place, each)
            while self._returned.again and any(each.is_free() for each in self._workers):
                self.give(self._returned.again.popleft())
        return self._returned.replies.popleft() if self._returned.replies else None

    def _ready(self, seconds: float) -> set[int]:
        """The descriptors of connections on which a reply has come, or which were closed, within so many seconds."""
        asked = select.poll()
        for each in self._workers:
            if each.held:
                asked.register(each.connection.fileno(), select.POLLIN)
        return {descriptor for descriptor, _ in asked.poll(seconds * MILLISECONDS)}

    def _receive(self, place: int, of: Worker) -> None:
        try:
            reply = pickle.loads(of.connection.recv_bytes())
        except (EOFError, ConnectionResetError):
            self._workers[place] = self._replaced(of)
            return
        if isinstance(reply, Exception):
            raise reply
        of.held.popleft()
        self._returned.replies.append(reply)

    def _replaced(self, killed: Worker) -> Worker:
        """A worker in place of one that was killed. What that one held is to be done again."""
        killed.connection.close()
        status = killed.process.wait()
        if status >= 0:
            raise Halt(f"A worker ended by itself, with status {status}: see above.")
        self._returned.give_back(killed.held)
        try:
            return started()
        except OSError as error:
            raise Halt(f"A worker can't be started in place of a killed one: {error.strerror or error}.") from error

    def close(self) -> None:
        """End the workers; one that is still at a task is stopped."""
        for each in self._workers:
            each.connection.close()
        for each in self._workers:
            try:
                each.process.wait(ENDING_SECONDS if not each.held else 0)
            except subprocess.TimeoutExpired:
                each.process.kill()
                each.process.wait()


def started() -> Worker:
    """A new worker, in a group of its own, so that an interrupt at the terminal reaches only who sends it tasks.

    It is a copy of this process, which has loaded everything, unless that has several threads: then it starts anew.
    """
    ours, theirs = socket.socketpair()
    with theirs:
        try:
            process: Process
            if is_one_thread() and threading.active_count() == 1:
                process = Copy(theirs.fileno())
            else:
                process = begun(theirs.fileno())
        except OSError:
            ours.close()
            raise
    return Worker(process, Connection(ours.detach()), deque())


def begun(descriptor: int) -> subprocess.Popen[bytes]:
    """A worker that is started anew."""
    paths = f"{PACKAGE}:{os.environ.get('PYTHONPATH', '')}".rstrip(":")
    return subprocess.Popen(
        [sys.executable, "-m", worker.__name__, str(descriptor)],
        env=os.environ | ONE_THREAD | {"PYTHONPATH": paths},
        pass_fds=[descriptor],
        stdin=subprocess.DEVNULL,
        process_group=0,
    )


class Copy:
    """A copy of this process that works on tasks. It keeps nothing open but its connection: neither the journal's lock
    nor the connections of others, by which these see that this process has ended."""

    def __init__(self, descriptor: int) -> None:
        self._status: int | None = None
        self.pid = os.fork()
        if self.pid == 0:
            try:
                os.setpgid(0, 0)
                signal.signal(signal.SIGTERM, signal.SIG_DFL)
                os.closerange(3, descriptor)
                os.closerange(descriptor + 1, MOST_DESCRIPTORS)
                os.dup2(os.open(os.devnull, os.O_RDONLY), 0)
                worker.main(descriptor)
                os._exit(0)
            except BaseException:
                traceback.print_exc()
                os._exit(1)

    def wait(self, timeout: float | None = None) -> int:
        """The status as `subprocess` gives it, when the process has ended."""
        until = None if timeout is None else monotonic() + timeout
        step = FIRST_STEP_SECONDS
        while self._status is None:
            found, status = os.waitpid(self.pid, 0 if until is None else os.WNOHANG)
            if found:
                self._status = os.waitstatus_to_exitcode(status)
            elif until is not None and monotonic() >= until:
                raise subprocess.TimeoutExpired(str(self.pid), timeout or 0)
            else:
                sleep(step)
                step = min(2 * step, MOST_STEP_SECONDS)
        return self._status

    def kill(self) -> None:
        """Stop the process."""
        if self._status is None:
            os.kill(self.pid, signal.SIGKILL)
