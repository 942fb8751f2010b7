"""How far a run is: a bar with rate and time left on a terminal, one line a minute otherwise, or nothing."""

from __future__ import annotations

import sys
from collections.abc import Callable
from contextlib import suppress
from time import monotonic
from typing import IO, Any

import click

MINUTE = 60


class Progress:
    """Counts files that are done. Where nobody reads what it says any more, it says nothing, and the run goes on.

    Parameters
    ----------
    total : int
    is_quiet : bool
    stream : file, optional
        Standard error without it.
    clock : callable, optional
        Seconds from some moment.

    Attributes
    ----------
    done, kept, cleared : int
        Files that are done so far; those of them that an earlier run did; refused ones whose earlier outputs went.

    Examples
    --------
    >>> moments = iter([0, 30, 61, 90])
    >>> progress = Progress(4, stream=sys.stdout, clock=lambda: next(moments))
    >>> for _ in range(3):
    ...     progress.advance()
    2 of 4 files are done, 2.0 a minute; about 1 minute left.
    """

    def __init__(
        self, total: int, is_quiet: bool = False, stream: IO[str] | None = None, clock: Callable[[], float] = monotonic
    ) -> None:
        self.total, self.done, self.kept, self.cleared = total, 0, 0, 0
        self._stream, self._clock = stream or sys.stderr, clock
        self._begun = self._said = clock()
        self._is_quiet = is_quiet
        self._bar: Any = None
        if not is_quiet and self._stream.isatty():
            from tqdm import tqdm

            tqdm.monitor_interval = 0  # without its thread, so that workers can be copies of this process
            self._bar = tqdm(total=total, unit=" files", file=self._stream, dynamic_ncols=True)

    def advance(self) -> None:
        """One file more is done."""
        self.done += 1
        if self._bar is not None:
            with suppress(OSError):
                self._bar.update()
        elif not self._is_quiet:
            now = self._clock()
            if now - self._said >= MINUTE:
                self._said = now
                self.warn(self.line(now - self._begun))

    def say(self, words: str) -> None:
        """Say something beside the count."""
        if not self._is_quiet:
            self.warn(words)

    def warn(self, words: str) -> None:
        """Say something that is said even quietly."""
        try:
            if self._bar is None:
                click.echo(words, file=self._stream)
            else:
                self._bar.write(words, file=self._stream)
        except OSError:
            pass

    def line(self, seconds: float) -> str:
        """How far it is after so many seconds, in words.

        Examples
        --------
        >>> progress = Progress(2000, is_quiet=True)
        >>> progress.done = 500
        >>> progress.line(600)
        '500 of 2,000 files are done, 50.0 a minute; about 30 minutes left.'
        """
        fresh = self.done - self.kept
        said = f"{self.done:,} of {self.total:,} files are done"
        if self.kept:
            said += f", {self.kept:,} of them by an earlier run"
        if not fresh:
            return f"{said}."
        rate = fresh * MINUTE / seconds
        left = max(1, round((self.total - self.done) / rate))
        unit = "minute" if left == 1 else "minutes"
        return f"{said}, {rate:,.1f} a minute; about {left:,} {unit} left."

    def close(self) -> None:
        """End the bar."""
        if self._bar is not None:
            with suppress(OSError):
                self._bar.close()
