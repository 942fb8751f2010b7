"""Coefficients from local ordinates, by § 12.

The steps of the build are taken in order on the whole beam. After the build's
own work on a step the present numbers times the jumps must add up to zero
(number 19), then the step's weights are undone row by row; every fraction of
both is under the build's size limit (number 20). Zero jumps are left out of the
sum. The numbers of the last step are the coefficients.
"""

from fractions import Fraction
from typing import NamedTuple, Optional

from calls import Outcome, Reply, refused
from limits import LARGEST_PLACE, ORDINATE_LIMIT
from space import SHORT_BUFFER, Refusal, Space, check_build_buffers, check_lengths, check_space
from weights import ONE, ZERO, fits, join_conditions, step_shares, stepped

BAD_ORDINATE, NO_COEFFICIENTS, TOO_LARGE_TO_UNDO = 18, 19, 20
NUMERATORS_PLACE, DENOMINATORS_PLACE = 3, 4     # of number 1


PRODUCT, SUM, SHARE, DIFFERENCE, QUOTIENT = LIMITED = "product", "partial sum", "share", "difference", "quotient"


class Recovery(NamedTuple):
    """The reply and the weights as after a build call; `answers` is None where
    the answer buffers are unchanged, else a fraction for each ordinate;
    `too_large` says what kind of fraction number 20 is for."""
    outcome: Outcome
    answers: Optional[list] = None
    too_large: Optional[str] = None


class TooLargeToUndo(Refusal):
    """Number 20, with the kind of fraction."""

    def __init__(self, kind, join):
        super().__init__(TOO_LARGE_TO_UNDO, join)
        self.kind = kind


def limited(fraction, kind, join):
    """The fraction itself where its size is allowed."""
    if not fits(fraction):
        raise TooLargeToUndo(kind, join)
    return fraction


def check_balance(numbers, jumps, join):
    """Number 19: the sum of present numbers times jumps, rows rising, is zero."""
    total = ZERO
    for number, jump in zip(numbers, jumps):
        if jump:
            total = limited(total + limited(number * jump, PRODUCT, join), SUM, join)
    if total:
        raise Refusal(NO_COEFFICIENTS, join)


def undone(numbers, first, last, shares, join):
    """The numbers of the step's new rows: one fewer."""
    new = [numbers[first]]
    for row in range(first + 1, last):
        earlier = limited((1 - shares[row]) * new[-1], SHARE, join)
        left = limited(numbers[row] - earlier, DIFFERENCE, join)
        new.append(limited(left / shares[row], QUOTIENT, join))
    return numbers[:first] + new + numbers[last + 1:]


def recover(space, ordinates):
    """The weight rows of a space with legal lists and the coefficients that give
    these ordinates, or number 8, 9, 19 or 20."""
    rows = [{column: ONE} for column in range(space.column_count())]
    numbers = [Fraction(ordinate) for ordinate in ordinates]
    for join, condition in join_conditions(space):
        jumps, first, last, shares = step_shares(rows, condition, join)
        rows = stepped(rows, first, last, shares, join)
        check_balance(numbers, jumps, join)
        numbers = undone(numbers, first, last, shares, join)
    return rows, numbers


def check_answer_buffers(coef_num_length, coef_den_length, ordinate_count):
    for place, length in ((NUMERATORS_PLACE, coef_num_length), (DENOMINATORS_PLACE, coef_den_length)):
        if length < ordinate_count:
            raise Refusal(SHORT_BUFFER, place)


def check_ordinates(ordinates, column_count):
    """Number 18: the count first, then the range."""
    if len(ordinates) != column_count:
        raise Refusal(BAD_ORDINATE, LARGEST_PLACE)
    for place, ordinate in enumerate(ordinates):
        if abs(ordinate) > ORDINATE_LIMIT:
            raise Refusal(BAD_ORDINATE, place)


def coefficients_outcome(space_lists, ordinates, num_length, den_length,
                         coef_num_length, coef_den_length):
    """What a call that recovers coefficients leaves behind."""
    space = Space(*space_lists)
    try:
        check_build_buffers(num_length, den_length)
        check_answer_buffers(coef_num_length, coef_den_length, len(ordinates))
        check_lengths(space)
        check_space(space)
        check_ordinates(ordinates, space.column_count())
    except Refusal as refusal:
        return Recovery(refused(refusal))
    try:
        rows, numbers = recover(space, ordinates)
    except Refusal as refusal:
        return Recovery(refused(refusal, rows=[]), [ZERO] * len(ordinates), getattr(refusal, "kind", None))
    unused = [ZERO] * (len(ordinates) - len(numbers))
    return Recovery(Outcome(Reply(len(rows), 0, 0), rows, corner=space.last_part_corner()),
                    numbers + unused)
