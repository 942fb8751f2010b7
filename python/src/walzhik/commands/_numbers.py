"""Numbers as options of a command: a whole number, and how rings are counted."""

from __future__ import annotations

from collections.abc import Callable
from typing import Any, TypeVar

import click

from ..counting import Counting
from ..decimals import NoNumber, whole

Decorated = TypeVar("Decorated", bound=Callable[..., Any])


class Whole(click.ParamType):
    """A whole number in ASCII digits, from a least to a greatest one where these are given."""

    name = "number"

    def __init__(self, least: int | None = None, most: int | None = None) -> None:
        self.least = least
        self.most = most

    def convert(self, value: object, param: click.Parameter | None, ctx: click.Context | None) -> int:
        if isinstance(value, int):
            return value
        try:
            number = whole(str(value))
        except NoNumber as error:
            self.fail(str(error), param, ctx)
        if self.least is not None and number < self.least or self.most is not None and number > self.most:
            ends = f"at least {self.least}" if self.most is None else f"from {self.least} to {self.most}"
            self.fail(f"{number} is out of range: it is {ends}", param, ctx)
        return number


WHOLE = Whole()


def counting_options(function: Decorated) -> Decorated:
    """The options --first and --each-first, for `counting_of`."""
    for name, words in (
        ("--each-first", "The ring of each series' own first width, as where rings are counted from the pith."),
        (
            "--first",
            "The ring of the first width of the earliest series named; the others keep their distance in years. "
            "Without it rings are years.",
        ),
    ):
        function = click.option(name, type=WHOLE, metavar="RING", help=words)(function)
    return function


def counting_of(first: int | None, each_first: int | None) -> Counting:
    """How rings are counted.

    Raises
    ------
    click.UsageError
        If both options are given.
    """
    try:
        return Counting(first, each_first)
    except ValueError as error:
        raise click.UsageError(str(error)) from error
