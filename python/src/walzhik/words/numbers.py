"""Numbers in words. Apart because refusals, notes, promises and the screen count and measure alike."""

from __future__ import annotations

from ..limits import PER_MM, UNIT


def count(number: int, noun: str) -> str:
    """A number of things.

    Examples
    --------
    >>> count(1, "order"), count(2, "stretch"), count(0, "ring")
    ('1 order', '2 stretches', 'no rings')
    """
    plural = noun if number == 1 else noun + ("es" if noun.endswith("ch") else "s")
    return f"{number:,} {plural}" if number else f"no {plural}"


def millimetres(value: int) -> str:
    """A value, in 256ths of a thousandth, as millimetres to the nearest thousandth.

    Examples
    --------
    >>> millimetres(614400), millimetres(-128)
    ('2.400', '0.000')
    """
    thousandths = (2 * value + UNIT) // (2 * UNIT)
    return f"{'-' if thousandths < 0 else ''}{abs(thousandths) // PER_MM}.{abs(thousandths) % PER_MM:03}"


def ring_at(position: int) -> str:
    """A position as a ring and 256ths.

    Examples
    --------
    >>> ring_at(512), ring_at(640)
    ('ring 2', 'ring 2 and 128/256')
    """
    ring, rest = divmod(position, UNIT)
    return f"ring {ring} and {rest}/{UNIT}" if rest else f"ring {ring}"
