"""The workers of a Dask cluster that somebody has started: the same tasks as on this machine, sent through its
scheduler, each to a worker that was asked before whether it can do it. Dask carries tasks and replies and says which
workers live; who does what is decided here, so that one that is lost, late or not set up spoils nothing.
"""

from __future__ import annotations

import logging
import warnings
from collections import deque
from collections.abc import Callable
from concurrent.futures import CancelledError
from importlib import import_module
from time import monotonic
from typing import Any, NamedTuple

from ..failures import Unusable
from .address import Address
from .inputs import shown
from .outputs import Halt
from .reading import Damaged, Unsteady, read
from .records import Record
from .task import Reply, Task, WrongCopy, run_apart, seen
from .workers import Returned

CONNECTING_SECONDS = 10  # also how long a lost scheduler may take to come back
ANSWER_SECONDS = 5  # for a scheduler that is asked which workers live
LOOK_SECONDS = 1
ALONE_SECONDS = 60  # how long no worker may be there
SILENT_SECONDS = 30  # how long a scheduler may not answer
FETCHING_SECONDS = 5  # for a reply that is there
ENDING_SECONDS = 5
STEP_SECONDS = 0.1
AT_HAND = 3  # tasks that a worker is given beyond those it is at, so that it need not wait for one
MOST_SENT = 64 * 2**20  # bytes of inputs that are on their way
OVER = ("finished", "error", "cancelled")
HOW = "docs/CLUSTER.md says how to start them."


class Forgotten(Exception):
    """A task came to an error that was not told."""


class Given(NamedTuple):
    """What a worker was asked: a task, or None for whether it can do any."""

    worker: str
    task: Task | None


class Hand(NamedTuple):
    """A worker: how many tasks it does at once, and those that it holds, oldest first."""

    threads: int
    held: deque[Task]


class ClusterWorkers:
    """The workers behind a scheduler.

    Parameters
    ----------
    address : Address
    probe : Task
        A task that every worker is asked about before it is given any.
    say : callable
        Takes words about workers that are left out.

    Raises
    ------
    Unusable
        If there is no scheduler there, or no worker that can do the task.
    """

    def __init__(self, address: Address, probe: Task, say: Callable[[str], None]) -> None:
        try:
            distributed: Any = import_module("distributed")  # Debian's has types only in part
        except ImportError as error:
            raise Unusable("--scheduler needs the Debian package python3-distributed.") from error
        silence()
        self._url, self._probe, self._say = address.url, probe, say
        self._returned = Returned()
        self._hands: dict[str, Hand] = {}
        self._left_out: dict[str, str] = {}
        self._given: dict[Any, Given] = {}
        self._over: dict[Any, float] = {}
        self._threads: dict[str, int] = {}
        self._sent = 0
        self._client = connected(distributed, address)
        self._completed: Any = distributed.as_completed(loop=self._client.loop, with_results=True, raise_errors=False)
        self._heard = self._looked = self._alone = monotonic()
        try:
            self._ask_first()
        except BaseException:
            self.close()
            raise

    @property
    def killed(self) -> int:
        """How many workers were lost so far."""
        return self._returned.killed

    def has_room(self) -> bool:
        """Whether another task can be given."""
        is_free = any(len(hand.held) < hand.threads + AT_HAND for hand in self._hands.values())
        return is_free and self._is_connected() and not self._returned.again and self._sent < MOST_SENT

    def is_busy(self) -> bool:
        """Whether a reply is still to come."""
        returned = self._returned
        return bool(returned.replies or returned.again or any(hand.held for hand in self._hands.values()))

    def give(self, task: Task) -> None:
        """Send a task to the worker that holds fewest for its threads."""
        worker, hand = min(self._hands.items(), key=lambda each: len(each[1].held) / each[1].threads)
        hand.held.append(task)
        self._sent += len(task.data or b"")
        self._submit(run_apart, Given(worker, task), task)

    def take(self, seconds: float) -> Reply | None:
        """The next reply, or None where none comes within so many seconds.

        Raises
        ------
        Halt
            If the scheduler or all workers are gone, or nothing can be written.
        """
        until = monotonic() + seconds
        while not self._returned.replies:
            self._settle()
            if monotonic() - self._looked >= LOOK_SECONDS:
                self._look()
            while self._returned.again and self._hands and self._is_connected():
                self.give(self._returned.again.popleft())
            if self._returned.replies or monotonic() >= until:
                break
            with self._completed.thread_condition:
                if not self._completed.has_ready():
                    self._completed.thread_condition.wait(STEP_SECONDS)
        return self._returned.replies.popleft() if self._returned.replies else None

    def close(self) -> None:
        """Leave the cluster as it is; what is not begun is not done, and what is under way may not be written."""
        for future in self._given:
            future.release()
        self._given.clear()
        try:
            self._client.close(timeout=ENDING_SECONDS)
        except (OSError, RuntimeError, AssertionError):
            pass  # the scheduler is gone, and Dask's threads end with this process

    # Who is there.

    def _is_connected(self) -> bool:
        """Whether the scheduler takes tasks now.

        Raises
        ------
        Halt
            If it is gone, and Dask has given it up.
        """
        if self._client.status in ("closing", "closed"):
            raise Halt(f"The scheduler at {self._url} is gone.")
        return bool(self._client.status == "running")

    def _ask_first(self) -> None:
        """Wait until a worker can be used, or all have said that they can't."""
        until = monotonic() + CONNECTING_SECONDS
        self._look()
        while not self._hands:
            if monotonic() > until or (self._left_out and not self._given):
                told = " ".join(f"Worker {worker} can't be used. {words}" for worker, words in self._left_out.items())
                raise Unusable(f"{told or f'The scheduler at {self._url} has no workers that answer.'} {HOW}")
            self.take(STEP_SECONDS)

    def _look(self) -> None:
        """Take note of workers that have come or are gone."""
        self._looked = monotonic()
        living = self._living()
        if living is None:
            return
        for worker in [worker for worker in self._hands if worker not in living]:
            self._bury(worker, is_lost=True)
        asked = {each.worker for each in self._given.values() if each.task is None}
        for worker in living.keys() - self._hands.keys() - self._left_out.keys() - asked:
            self._submit(seen, Given(worker, None), self._probe)
        for future, each in list(self._given.items()):
            if each.worker not in living:  # a question to it
                del self._given[future]
                future.release()
        self._left_out = {worker: words for worker, words in self._left_out.items() if worker in living}
        self._fetch_again()
        if self._hands:
            self._alone = monotonic()
        elif monotonic() - self._alone > ALONE_SECONDS:
            raise Halt(f"No worker is left at {self._url}. {HOW}")

    def _living(self) -> dict[str, int] | None:
        """The threads of each worker that lives, or None where the scheduler does not answer now."""
        if not self._is_connected():
            return None
        try:
            living: dict[str, int] = self._client.nthreads(callback_timeout=ANSWER_SECONDS)
        except (OSError, AttributeError) as error:  # the second where the client has just given up
            if monotonic() - self._heard > SILENT_SECONDS:
                raise Halt(f"The scheduler at {self._url} does not answer.") from error
            return None
        self._heard = monotonic()
        self._threads = living
        return living

    def _bury(self, worker: str, is_lost: bool) -> None:
        """Give what a worker held to others."""
        hand = self._hands.pop(worker)
        for future, each in list(self._given.items()):
            if each.worker == worker:
                del self._given[future]
                self._sent -= len(each.task.data or b"") if each.task is not None else 0
                future.release()
        if is_lost:
            self._returned.give_back(hand.held, hand.threads)
        else:
            self._returned.again.extend(hand.held)

    def _leave_out(self, worker: str, words: str) -> None:
        """Use a worker no more, and say so once."""
        self._left_out[worker] = words
        if worker in self._hands:
            self._bury(worker, is_lost=False)
        self._say(f"Worker {worker} is left out. {words}")

    # What comes back.

    def _submit(self, function: Callable[[Task], object], given: Given, task: Task) -> None:
        try:
            future = self._client.submit(function, task, workers=[given.worker], allow_other_workers=False, pure=False)
        except Exception as error:  # Dask has no kind of its own for a client that has just been closed
            raise Halt(f"The scheduler at {self._url} is gone: {error}.") from error
        self._given[future] = given
        self._completed.add(future)

    def _settle(self) -> None:
        """Take note of all that has come back."""
        for future, result in self._completed.next_batch(block=False):
            error = None
            if future.status != "finished":
                error = result[1] if isinstance(result, tuple) else result
            self._settle_one(future, result, error)

    def _settle_one(self, future: Any, result: Any, error: BaseException | None) -> None:
        given = self._given.pop(future, None)
        if given is None:
            return  # it was given to another meanwhile
        if given.task is None:
            self._answered(given.worker, result, error)
        else:
            self._sent -= len(given.task.data or b"")
            self._hands[given.worker].held.remove(given.task)
            self._replied(given.worker, given.task, result, error)

    def _fetch_again(self) -> None:
        """Ask again for replies that are there but have not come: Dask drops one whose connection breaks, and an error
        that can't be sent."""
        now = monotonic()
        over = {future for future in self._given if future.status in OVER}
        self._over = {future: self._over.get(future, now) for future in over}
        for future, since in self._over.items():
            if now - since > FETCHING_SECONDS:
                self._over[future] = now
                if future.status == "finished":
                    self._completed.add(future)
                elif future.status == "cancelled":
                    self._settle_one(future, None, CancelledError())
                else:
                    self._settle_one(future, None, Forgotten("It fails in a way that it can't tell"))

    def _answered(self, worker: str, words: str, error: BaseException | None) -> None:
        """Whether a worker can be used."""
        if is_cancelled(error):
            return  # it is asked again when the scheduler is back
        if error is not None:
            words = f"{type(error).__name__}: {error}."
        if words:
            self._leave_out(worker, words)
        else:
            self._hands[worker] = Hand(max(1, self._threads.get(worker, 1)), deque())

    def _replied(self, worker: str, task: Task, result: Any, error: BaseException | None) -> None:
        """What a task came to, or who else is to do it."""
        if error is None:
            self._returned.replies.append(result)
        elif isinstance(error, Halt):
            raise error
        elif isinstance(error, WrongCopy):
            self._compare(worker, task, str(error))
        elif type(error).__name__ == "KilledWorker":
            self._returned.give_back([task])
        else:
            self._returned.again.append(task)
            if not is_cancelled(error):
                self._leave_out(worker, f"It failed at {shown(task.input.path)}. {type(error).__name__}: {error}.")

    def _compare(self, worker: str, task: Task, words: str) -> None:
        """Whether a worker has another file, or the file has changed here too."""
        try:
            is_changed = read(task.input.source).digest != task.digest
        except (OSError, Unsteady, Damaged):
            is_changed = True
        if is_changed:
            told = "It changed while it was read. Run again when nothing writes to it."
            self._returned.replies.append(Reply.of(Record(task.input.path, refusal=told)))
        else:
            self._returned.again.append(task)
            self._leave_out(worker, words)


def silence() -> None:
    """Keep Dask's own reports away: what they are about is told here, in words."""
    for name in list(logging.root.manager.loggerDict):
        if name.split(".")[0] in ("distributed", "tornado", "asyncio"):
            logging.getLogger(name).setLevel(logging.CRITICAL + 1)
    warnings.filterwarnings("ignore", message="Large object")  # an input that is sent is meant to be


def is_cancelled(error: BaseException | None) -> bool:
    """Whether nothing is said by an error but that the scheduler has forgotten the task."""
    return type(error).__name__ in ("CancelledError", "FutureCancelledError")


def connected(distributed: Any, address: Address) -> Any:
    """A client of the scheduler."""
    security = None
    if address.certificates is not None:
        authority, certificate, key = address.certificates
        security = distributed.Security(
            tls_ca_file=authority, tls_client_cert=certificate, tls_client_key=key, require_encryption=True
        )
    try:
        return distributed.Client(address.url, timeout=CONNECTING_SECONDS, set_as_default=False, security=security)
    except (OSError, ValueError, TypeError) as error:
        raise Unusable(f"There is no scheduler at {address.url} for this command: {error}. {HOW}") from error
