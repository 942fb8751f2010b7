"""Numbers and names as the tables of `curve`, `reach` and the data bank's report have them. Values become decimals by
whole numbers alone, so that what the engine gives is printed and not worked out again. The table of indices is not
printed here: the engine's own calls do it (`walzhik.dividing`).
"""

from __future__ import annotations

from typing import TYPE_CHECKING

import numpy as np

if TYPE_CHECKING:
    from numpy.typing import NDArray

MILLION = 1_000_000
MILLIONTHS, VALUES = 125, 32  # so many millionths of a millimetre are so many 256ths of a thousandth


def millionths(values: NDArray[np.int32]) -> NDArray[np.int64]:
    """Values in 256ths of a thousandth of a millimetre as millionths of a millimetre, to the nearest, halves upwards.

    Examples
    --------
    >>> millionths(np.array([614400, 1, -1], dtype=np.int32))
    array([2400000,       4,      -4])
    """
    return np.asarray((2 * MILLIONTHS * values.astype(np.int64) + VALUES) // (2 * VALUES))


def decimal(number: int) -> str:
    """Millionths as a number with six decimals.

    Examples
    --------
    >>> decimal(2400000), decimal(-4)
    ('2.400000', '-0.000004')
    """
    whole, rest = divmod(abs(number), MILLION)
    return f"{'-' if number < 0 else ''}{whole}.{rest:06}"


def quoted_field(text: str) -> str:
    """A text as a field of CSV, in quotation marks where it needs them.

    Examples
    --------
    >>> print(quoted_field("ROOF04E"), quoted_field('A,"B'))
    ROOF04E "A,""B"
    """
    if "," in text or '"' in text or "\r" in text or "\n" in text or text != text.strip():
        doubled = text.replace('"', '""')
        return f'"{doubled}"'
    return text
