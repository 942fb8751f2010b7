"""The series that a command works on: the options that say how files of widths are read, and the series of all files."""

from __future__ import annotations

from collections import Counter
from collections.abc import Callable, Sequence
from typing import Any, TypeVar

import click

from ..choosing import without_blanks
from ..failures import Unusable
from ..tucson import Series
from ._tucson_files import (
    cleaned,
    from_option,
    front_options,
    other_options,
    quiet_option,
    reading_asked,
    refuse_shared_names,
    strict_option,
)

Decorated = TypeVar("Decorated", bound=Callable[..., Any])


def file_options(function: Decorated) -> Decorated:
    """The options that say what files of widths are, for `reading_asked`."""
    return from_option(strict_option(front_options(other_options(function))))


def reading_options(function: Decorated) -> Decorated:
    """The options that say how files of widths are read, for `read_series`."""
    return file_options(quiet_option(function))


def wood_options(series: str) -> Callable[[Decorated], Decorated]:
    """The options that name the series of a command which takes several, with what is said of --series."""

    def optional(function: Decorated) -> Decorated:
        for name, words in (
            ("--latewood", "A series of the latewood; may come again."),
            ("--earlywood", "A series of the earlywood; may come again."),
            ("--series", series),
        ):
            function = click.option(name, multiple=True, metavar="NAME", help=words)(function)
        return function

    return optional


def read_series(files: Sequence[str], **asked: Any) -> list[Series]:
    """The series of all files, in their order, by names without outer blanks; no name may stand in two of them. What is asked is
    named as by `reading_asked`."""
    reading = reading_asked(**asked)
    read = [(name, cleaned(name, reading)[1]) for name in files]
    refuse_shared_names(read)
    series = without_blanks(each for _, found in read for each in found)
    for name, times in Counter(each.name for each in series).items():
        if times > 1:
            raise Unusable(f"Two series are named {name}: give one of them another name.")
    return series
