"""The limits of the specification, each under one name.

They stand apart so that no other file of the reference model holds a bare
number, and a change of a limit is a change of one line.
"""

from fractions import Fraction

SIDE = 72                    # rows and columns of the table that the buffers hold
CELLS = SIDE * SIDE          # cells of one weight buffer that a call may write

MOST_SEGMENTS = 48           # of a beam; the specification says stretch for segment
MOST_PART_SEGMENTS = 12      # of a part of a beam, between discontinuities
BREAKPOINT_LIMIT = 10_000    # size of a breakpoint
SPAN_LIMIT = 2_000           # last breakpoint minus first, of a part
LEAST_DEGREE = 1
MOST_DEGREE = 5
DISCONTINUITY = -1           # the order of a join without condition: a scar
MOST_ORDER = 2

COEFFICIENT_LIMIT = 1_000_000
MOST_POSITIONS = 4_096
UNIT = 256                   # positions are 256ths of a ring, values 256ths too
PARTS = 2                    # of a ring: earlywood and latewood, side by side in lists

ORDINATE_LIMIT = 256_000_000 # of the ordinates that coefficients are recovered from

SIZE_LIMIT = 2 ** 31         # counted numerators and denominators stay below
LARGEST_PLACE = 2 ** 32 - 1  # stands for every larger place too

MOST_SHEET_BYTES = 65_536
MOST_LIST_ENTRIES = 4_096    # of one line of a sheet
MOST_DIGITS = 7              # of one number of a sheet

# Tucson decadal files (§ 14).
NAME_COLUMNS = 8
YEAR_COLUMNS = 4
FIELD_COLUMNS = 6
MOST_FIELDS = 10             # of one line
DECADE = 10                  # years
LEAST_PRINTABLE, MOST_PRINTABLE = 32, 126
HUNDREDTHS_CLOSING, THOUSANDTHS_CLOSING = 999, -9_999
MOST_HUNDREDTHS, MOST_THOUSANDTHS = 9_999, 99_999
LEAST_YEAR, MOST_YEAR = -999, 9_999
MOST_TUCSON_BYTES = 1_048_576  # that the filter holds

# Files as laboratories have them (§ 16).
TAB_COLUMNS = 8
MOST_HEADER, NO_HEADER = 99, 100
HUNDREDTHS, THOUSANDTHS, NO_UNIT = 100, 1_000, 0
UNKNOWN_CLOSING = -999       # of which nobody knows the unit
MOST_FILE_BYTES = 2 ** 32 - 1

INDEX_SCALE = 256_000        # 256 for the values' units, 1,000 for three decimals
ABSENT_INDEX = -1            # of a ring of width 0

# The table of indices (§ 17).
WIDTH_DECIMALS, CURVE_DECIMALS = 3, 6
MILLIONTHS_OF_VALUE = Fraction(125, 32)
