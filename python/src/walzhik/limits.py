"""The engine's limits and units, and the columns of a Tucson line, as the modules around the engine share them."""

from __future__ import annotations

PER_MM = 1000  # thousandths of a millimetre
UNIT = 256  # positions are in 256ths of a ring, values in 256ths of a thousandth of a millimetre
WOOD = ("earlywood", "latewood")
MOST_STRETCHES = 48
MOST_PART_STRETCHES = 12  # of a part between scars
MOST_BREAKPOINT = 10_000
MOST_SPAN = 2_000  # rings, of a part between scars
DEGREES = (1, 5)
SCAR, MOST_ORDER = -1, 2
MOST_COEFFICIENT = 1_000_000  # thousandths of a millimetre
MOST_WIDTH = 99_999

NAME_COLUMNS, YEAR_COLUMNS, FIELD_COLUMNS, MOST_FIELDS = 8, 4, 6, 10
HEAD = NAME_COLUMNS + YEAR_COLUMNS
DECADE = 10
TAB = 8  # columns up to a multiple of which a tab goes
HUNDREDTHS, THOUSANDTHS = 999, -9999  # the two closing fields
MOST_HUNDREDTHS = 9_999
BAD_LINE = 11  # the number for a line, or a series to be written, that the form can't hold
