"""The shapes that the page offers for a fit, each with what is proved of it."""

from __future__ import annotations

from ..fit import SHAPES, Shape
from .design import Malformed

WORDS: dict[Shape, str] = {
    "auto": "auto: falling, or one hump if closer",
    "falling": "falling: never rises (proved to order 1)",
    "hump": "one hump: no shape proved",
    "free": "free: no shape proved",
}


def shapes() -> list[tuple[Shape, str]]:
    """The shapes of a fit with their words."""
    return [(shape, WORDS[shape]) for shape in SHAPES]


def shape_of(sent: object) -> Shape:
    """The shape that was sent, or the one that is taken where none is.

    Raises
    ------
    Malformed
        If there is no such shape.

    Examples
    --------
    >>> shape_of("hump"), shape_of(None)
    ('hump', 'auto')
    >>> shape_of("round")
    Traceback (most recent call last):
    ...
    walzhik.view.design.Malformed: shape is none that a fit has.
    """
    for shape in SHAPES:
        if sent == shape or (sent is None and shape == "auto"):
            return shape
    raise Malformed("shape is none that a fit has.")
