"""Lists of whole numbers on the command line, and the three that make a space."""

from __future__ import annotations

import click

from ..decimals import NoNumber, whole
from ..failures import Unusable, telling
from ..space import Space


class WholeNumbers(click.ParamType):
    """Whole numbers with commas between them, as 0,20,60; an empty text is an empty list."""

    name = "numbers"

    def convert(self, value: object, param: click.Parameter | None, ctx: click.Context | None) -> list[int]:
        if isinstance(value, list):
            return value
        text = str(value)
        try:
            return [whole(number) for number in text.split(",")] if text else []
        except NoNumber as error:
            self.fail(f"it is no list of whole numbers with commas between them: {error}", param, ctx)


def space_of(breaks: list[int] | None, degrees: list[int] | None, orders: list[int] | None) -> Space | None:
    """The space that three options name, or None where none of them is given."""
    if breaks is None and degrees is None and orders is None:
        return None
    if breaks is None or degrees is None or (orders is None and len(degrees) != 1):
        raise Unusable(
            "Give --breaks, --degrees and --orders together (one stretch has no join, so it needs no --orders)."
        )
    with telling("the space"):
        return Space(breaks, degrees, orders or [])
