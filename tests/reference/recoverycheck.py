"""Checks the model of recovered coefficients by what § 12 says of it.

An answer's coefficients reproduce each ordinate, and no others do; after 19 the
ordinates miss a join condition, so that none would. Ordinates made from
coefficients give these coefficients back. The parts of a beam, each recovered by
itself from the left, end as the whole beam does.
"""

from collections import Counter
from random import Random

from limits import CELLS
from random_ordinates import combined, read_ordinates, random_ordinates
from recovery import NO_COEFFICIENTS, TOO_LARGE_TO_UNDO, coefficients_outcome, recover
from space import TOO_LARGE, Refusal, Space
from weights import build_rows, join_conditions

REACHABLE = {0, 1, 2, 3, 4, 5, 8, 15, 18, 19, 20}
BY_JOINS = (TOO_LARGE, NO_COEFFICIENTS, TOO_LARGE_TO_UNDO)
ENOUGH = 1_000                    # calls from which each number must have come up

W1_SPACE = ([0, 1, 3], [2, 2], [1])
# Lists of a space, ordinates, and the coefficients or the number and place.
RECOVERED = [
    (W1_SPACE, [0, 300, 200, 200, 0, 0], [0, 300, 0, 0]),
    (([0, 1, 512], [2, 2], [1]), [0, 256, 257, 257, 768, 0], [0, 256, 768, 0]),
    (([0, 1, 2], [1, 1], [-1]), [1, 2, 3, 4], [1, 2, 3, 4]),
    (W1_SPACE, [0, 300, 200, 201, 0, 0], (NO_COEFFICIENTS, 0)),
    (W1_SPACE, [0, 300, 201, 201, 0, 0], (NO_COEFFICIENTS, 0)),
]


def last_entry(numbers):
    """The place of the last number that is not zero."""
    return max(place for place, number in enumerate(numbers) if number)


def rank(vectors):
    """The rank of lists of fractions, by elimination."""
    leads = {}
    for vector in vectors:
        while any(vector):
            lead = last_entry(vector)
            if lead not in leads:
                leads[lead] = vector
                break
            factor = vector[lead] / leads[lead][lead]
            vector = [a - factor * b for a, b in zip(vector, leads[lead])]
    return len(leads)


def missed_joins(space, ordinates):
    """The joins with a condition that the ordinates do not meet."""
    return [join for join, condition in join_conditions(space)
            if sum(ordinates[column] * factor for column, factor in condition)]


def by_parts(space, ordinates):
    """The coefficients of the parts in a row, or the first part's refusal, its join
    counted over the beam."""
    coefs, columns = [], space.first_columns()
    for first, end in space.parts():
        part = Space(space.breaks[first:end + 1], space.degrees[first:end], space.orders[first:end - 1])
        try:
            coefs += recover(part, ordinates[columns[first]:columns[end]])[1]
        except Refusal as refusal:
            return refusal.number, first + refusal.place
    return coefs


def check_answer(tally, call, space, rows, coefs):
    columns = space.column_count()
    ordinates = call.lists["ordinates"]
    tally.check(len(coefs) == len(rows) == space.row_count(), "count of coefficients", call.line())
    tally.check(combined(rows, coefs, columns) == ordinates, "ordinates reproduced", call.line())
    dense = [[row.get(column, 0) for column in range(columns)] for row in rows]
    tally.check(rank(dense) == len(rows), "no others", call.line())
    tally.check(missed_joins(space, ordinates) == [], "conditions met", call.line())
    tally.check(rows == build_rows(space), "the build's own rows", call.line())


def check_call(tally, call, seen):
    outcome, answers, too_large = call.recovery()
    number, place = outcome.reply.number, outcome.reply.place
    seen[number] += 1
    space = call.space()
    if not number:
        check_answer(tally, call, space, outcome.rows, answers[:outcome.reply.count])
        tally.check(not any(answers[outcome.reply.count:]), "unused answers", call.line())
    if number in (0, *BY_JOINS):
        ends = (number, place) if number else answers[:outcome.reply.count]
        tally.check(by_parts(space, call.lists["ordinates"]) == ends, "by parts", call.line())
    if number == NO_COEFFICIENTS:
        missed = missed_joins(space, call.lists["ordinates"])
        tally.check(missed[0] == place, "the join that is missed", call.line())
    cleared = outcome.rows == [] and not any(answers)
    tally.check(cleared == (number in BY_JOINS), "cleared", call.line())
    tally.check((answers is None) == (outcome.rows is None), "unchanged", call.line())
    tally.check((too_large is None) == (number != TOO_LARGE_TO_UNDO), "kind of fraction", call.line())
    tally.check(read_ordinates(call.line()) == call._replace(drawn=""), "call line", call.line())


def check_cases(tally):
    for lists, ordinates, ends in RECOVERED:
        lengths = (CELLS, CELLS, len(ordinates), len(ordinates))
        outcome, answers, _ = coefficients_outcome(lists, ordinates, *lengths)
        reply = outcome.reply
        found = (reply.number, reply.place) if reply.number else answers[:reply.count]
        tally.check(found == ends, "recovered", lists, ordinates, found)


def check_recovery(tally, seed, count):
    rng = Random(seed)
    seen = Counter()
    check_cases(tally)
    for _ in range(count):
        check_call(tally, random_ordinates(rng), seen)
    if count >= ENOUGH:
        tally.check(all(seen[number] for number in REACHABLE), "seen", seen)
    print(f"selfcheck: {seen[0]} lists of ordinates answered, "
          + ", ".join(f"{seen[number]} with {number}" for number in sorted(REACHABLE - {0})))
