"""What the page says of a refusal: its words, and the control that it is about, so that the page can mark it and put
the words beside it.
"""

from __future__ import annotations

from typing import Any

from .._engine import LARGEST_PLACE
from ..errors import Refused
from ..limits import WOOD
from .design import RING, Design

LISTS, COEFFICIENTS, FIT, OPEN = "lists", "coefficients", "fit", "open"
BY_PLACE = {3: "break", 4: "degree", 5: "order", 8: "order", 9: "order", 15: "degree"}  # by the refusal's number
COEFFICIENT, OUTSIDE, INDEX = 6, 7, 14


def coefficient_control(row: int, wood: str) -> str:
    """The control of one coefficient."""
    return f"coefficient-{row}-{wood}"


def control(error: Refused, design: Design) -> str:
    """The control that a refusal of a design's curve is about.

    Examples
    --------
    >>> design = Design([0, 1, 3], [1, 2], [1], [], True)
    >>> control(Refused(5, 0, ""), design), control(Refused(6, 3, ""), design)
    ('order-0', 'coefficient-1-ring')
    """
    if error.number in BY_PLACE:
        return f"{BY_PLACE[error.number]}-{error.place}"
    if error.number == COEFFICIENT and error.place != LARGEST_PLACE:
        row, side = divmod(error.place, len(WOOD))
        return coefficient_control(row, RING if design.is_whole_ring else WOOD[side])
    return COEFFICIENTS if error.number == COEFFICIENT else LISTS


def told(error: Refused, about: str) -> dict[str, Any]:
    """A refusal as the page takes it, about a control."""
    return {
        "number": error.number,
        "place": error.place,
        "words": error.words,
        "remedy": error.remedy,
        "control": about,
    }


def in_words(words: str, about: str) -> dict[str, Any]:
    """What is no refusal of the engine, in the same form."""
    return {"number": None, "place": None, "words": words, "remedy": "", "control": about}
