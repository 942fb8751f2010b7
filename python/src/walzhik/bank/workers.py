"""What workers of this machine and of a cluster have in common: which tasks are to be done again, how often a task
lost its worker, and the replies that have come.
"""

from __future__ import annotations

from collections import Counter, deque
from collections.abc import Sequence
from typing import Protocol

from .records import Record
from .task import Reply, Task

MOST_TRIES = 3  # of a task whose workers are killed


class Workers(Protocol):
    """Who does tasks: processes of this machine, or a cluster."""

    @property
    def killed(self) -> int:
        ...

    def has_room(self) -> bool:
        ...

    def is_busy(self) -> bool:
        ...

    def give(self, task: Task) -> None:
        ...

    def take(self, seconds: float) -> Reply | None:
        ...

    def close(self) -> None:
        ...


def lost(task: Task, tries: int) -> Reply:
    """What a task came to whose workers were all killed."""
    words = f"{tries} workers were killed while they had it. It may need more memory than there is."
    return Reply.of(Record(task.input.path, refusal=words))


class Returned:
    """The tasks that came back from workers that are gone.

    Attributes
    ----------
    killed : int
        How many workers are gone so far.
    again : deque of Task
        Tasks to be given to others.
    replies : deque of Reply
        What has come, and what was given up.
    """

    def __init__(self) -> None:
        self.killed = 0
        self.again: deque[Task] = deque()
        self.replies: deque[Reply] = deque()
        self._tries: Counter[str] = Counter()

    def give_back(self, held: Sequence[Task], at_work: int = 1) -> None:
        """Take back what a worker held that is gone, oldest first: the first ones it was at, the others were only at
        hand."""
        self.killed += 1
        for place, task in enumerate(held):
            self._tries[task.input.path] += place < at_work
            if self._tries[task.input.path] >= MOST_TRIES:
                self.replies.append(lost(task, MOST_TRIES))
            else:
                self.again.append(task)
