"""The weights of a space, by § 5.

A beam is built whole here, as one table, though the engine builds its parts. A table is a list of rows; a row maps a column to its non-zero weight, columns
rising. Zero weights are left out: products, sums and mixtures of zeros are
zero, so none of them can be counted as too large.
"""

from fractions import Fraction
from functools import reduce
from math import comb, gcd, perm

from limits import SIZE_LIMIT
from space import BAD_JUMPS, TOO_LARGE, Refusal

ZERO = Fraction(0)
ONE = Fraction(1)


def fits(fraction):
    """The size limit on the fraction in lowest terms."""
    return abs(fraction.numerator) < SIZE_LIMIT and fraction.denominator < SIZE_LIMIT


def counted(fraction, join):
    """Number 8: the fraction itself where its size is allowed."""
    if not fits(fraction):
        raise Refusal(TOO_LARGE, join)
    return fraction


def conditions(space, join, k):
    """The column of conditions for derivative k: (column, whole number), rising."""
    left, right = space.degrees[join], space.degrees[join + 1]
    start = space.first_columns()[join + 1]
    left_factor = perm(left, k) * space.length(join + 1) ** k
    right_factor = -perm(right, k) * space.length(join) ** k
    signs = [(-1) ** (k - t) * comb(k, t) for t in range(k + 1)]
    # The left segment's last ordinate stands just before the right one's first.
    column = [(start - 1 - k + t, left_factor * sign) for t, sign in enumerate(signs)]
    column += [(start + t, right_factor * sign) for t, sign in enumerate(signs)]
    divisor = reduce(gcd, (entry for _, entry in column))
    return [(place, entry // divisor) for place, entry in column]


def row_jump(row, condition, join):
    total = ZERO
    for column, factor in condition:
        weight = row.get(column)
        if weight is not None:
            total = counted(total + counted(weight * factor, join), join)
    return total


def jump_range(jumps, join):
    """First and last row with a jump; number 9 for none or a gap between."""
    found = [row for row, jump in enumerate(jumps) if jump]
    if not found:
        raise Refusal(BAD_JUMPS, join)
    first, last = found[0], found[-1]
    if len(found) != last - first + 1:
        raise Refusal(BAD_JUMPS, join)
    return first, last


def kept_shares(jumps, first, last, join):
    """w at each row from `first` to `last`: the part that stays with its row."""
    shares = {first: ONE}
    total = jumps[first]
    for row in range(first + 1, last):
        total = counted(total + jumps[row], join)
        share = counted(total / jumps[row], join)
        if not 0 < share < 1:
            raise Refusal(BAD_JUMPS, join)
        shares[row] = share
    # Where a single row jumps, no row is mixed and no share is read.
    shares[last] = ZERO
    return shares


def mix(upper, share, lower, rest, join):
    """share times the upper row plus rest times the lower one."""
    mixed = {}
    for column in sorted(upper.keys() | lower.keys()):
        first = counted(share * upper.get(column, ZERO), join)
        second = counted(rest * lower.get(column, ZERO), join)
        entry = counted(first + second, join)
        if entry:
            mixed[column] = entry
    return mixed


def step_shares(rows, condition, join):
    """The jumps of all rows, the first and last row that jumps, and their shares."""
    jumps = [row_jump(row, condition, join) for row in rows]
    first, last = jump_range(jumps, join)
    return jumps, first, last, kept_shares(jumps, first, last, join)


def stepped(rows, first, last, shares, join):
    """The rows with those from first to last mixed: one fewer."""
    mixed = [mix(rows[i], shares[i], rows[i + 1], 1 - shares[i + 1], join)
             for i in range(first, last)]
    return rows[:first] + mixed + rows[last + 1:]


def step(rows, condition, join):
    """One null-space step: one row fewer, and no row has a jump any more."""
    _, first, last, shares = step_shares(rows, condition, join)
    return stepped(rows, first, last, shares, join)


def join_conditions(space):
    """Every (join, column of conditions), in the order of the steps."""
    for join, order in enumerate(space.orders):
        for k in range(order + 1):
            yield join, conditions(space, join, k)


def build_rows(space):
    """The weight rows of a space with legal lists, or number 8 or 9."""
    rows = [{column: ONE} for column in range(space.column_count())]
    for join, condition in join_conditions(space):
        rows = step(rows, condition, join)
    return rows


def by_column(space, rows):
    """The same table by columns: each a list of (row, weight), rows rising."""
    columns = [[] for _ in range(space.column_count())]
    for place, row in enumerate(rows):
        for column, weight in row.items():
            columns[column].append((place, weight))
    return columns
