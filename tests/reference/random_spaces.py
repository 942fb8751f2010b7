"""Random legal input: spaces, pairs of coefficients, positions and lent buffers.

Each function draws one style first and then the numbers, so that the rare
ends of the limits (longest span, edge of the breakpoint range, positions on
joins and discontinuities) come up as often as the plain middle.
"""

from limits import (BREAKPOINT_LIMIT, CELLS, COEFFICIENT_LIMIT, DISCONTINUITY,
                    LEAST_DEGREE, MOST_DEGREE, MOST_ORDER, MOST_PART_SEGMENTS,
                    MOST_POSITIONS, MOST_SEGMENTS, PARTS, SPAN_LIMIT, UNIT)
from protocol import Lent
from reading import side_by_side

LOW_FILL, HIGH_FILL = -(2 ** 63), 2 ** 63 - 1
FEW, SOME, MANY = 3, 40, 300      # counts of positions
SHORT, MIDDLE = 4, 40             # lengths of a segment
SPARE_CELLS = 9                   # cells a lent buffer has beyond need
NEAR_SPAN = 30                    # how far below the span limit is near it


def pick(rng, weighted):
    """One of (share, choice) pairs."""
    shares, choices = zip(*weighted)
    return rng.choices(choices, shares)[0]


def segment_count(rng):
    return pick(rng, [(10, 1), (45, rng.randint(2, 4)),
                      (30, rng.randint(5, MOST_PART_SEGMENTS - 1)),
                      (15, MOST_PART_SEGMENTS)])


def any_degree(rng):
    return rng.randint(LEAST_DEGREE, MOST_DEGREE)


def neighbouring_degrees(rng, segments):
    degrees = [any_degree(rng)]
    while len(degrees) < segments:
        near = degrees[-1] + rng.choice((-1, 1))
        degrees.append(min(max(near, LEAST_DEGREE), MOST_DEGREE))
    return degrees


def degree_list(rng, segments):
    style = pick(rng, [(30, "one"), (45, "any"), (15, "neighbouring"), (10, "high")])
    if style == "one":
        return [any_degree(rng)] * segments
    if style == "neighbouring":
        return neighbouring_degrees(rng, segments)
    least = LEAST_DEGREE if style == "any" else MOST_DEGREE - 1
    return [rng.randint(least, MOST_DEGREE) for _ in range(segments)]


def highest_orders(degrees):
    return [min(MOST_ORDER, left - 1, right - 1)
            for left, right in zip(degrees, degrees[1:])]


def order_list(rng, degrees):
    style = pick(rng, [(30, "highest"), (30, "any"), (30, "smooth"), (10, "scarred")])
    highest = highest_orders(degrees)
    if style == "highest":
        return highest
    if style == "any":
        return [rng.randint(DISCONTINUITY, high) for high in highest]
    if style == "smooth":
        return [min(high, 1) for high in highest]
    return [rng.choice((DISCONTINUITY, DISCONTINUITY, high)) for high in highest]


def filled_lengths(rng, segments, span):
    """Lengths that add up to the span."""
    cuts = sorted(rng.sample(range(1, span), segments - 1))
    return [high - low for low, high in zip([0] + cuts, cuts + [span])]


def length_list(rng, segments):
    style = pick(rng, [(25, "ones"), (30, "short"), (20, "middle"), (10, "one long"),
                       (10, "near the span limit"), (5, "at the span limit")])
    if style == "near the span limit":
        return filled_lengths(rng, segments, SPAN_LIMIT - rng.randint(0, NEAR_SPAN))
    if style == "at the span limit":
        return filled_lengths(rng, segments, SPAN_LIMIT)
    most = {"ones": 1, "middle": MIDDLE}.get(style, SHORT)
    lengths = [rng.randint(1, most) for _ in range(segments)]
    if style == "one long":
        lengths[rng.randrange(segments)] = rng.randint(1, SPAN_LIMIT - sum(lengths))
    return lengths


def breaks_from(rng, lengths):
    span = sum(lengths)
    start = pick(rng, [(30, 0), (30, rng.randint(-BREAKPOINT_LIMIT, BREAKPOINT_LIMIT - span)),
                       (15, -BREAKPOINT_LIMIT), (15, BREAKPOINT_LIMIT - span), (10, -span)])
    breaks = [min(max(start, -BREAKPOINT_LIMIT), BREAKPOINT_LIMIT - span)]
    for length in lengths:
        breaks.append(breaks[-1] + length)
    return breaks


def part_lists(rng, segments):
    """Lengths, degrees and orders of one part, or of more where an order is -1."""
    degrees = degree_list(rng, segments)
    return length_list(rng, segments), degrees, order_list(rng, degrees)


def joined_parts(parts):
    """The lists of a beam: a discontinuity between each two of the parts."""
    lengths, degrees, orders = [], [], []
    for part_lengths, part_degrees, part_orders in parts:
        orders += [DISCONTINUITY] * bool(degrees) + part_orders
        lengths += part_lengths
        degrees += part_degrees
    return lengths, degrees, orders


def part_counts(rng):
    """The segments of each part of a beam."""
    style = pick(rng, [(60, "few"), (15, "ones"), (15, "full"), (10, "most")])
    if style == "ones":
        return [1] * rng.choice((2, SOME, MOST_SEGMENTS))
    if style == "full":
        return [MOST_PART_SEGMENTS] * rng.randint(2, MOST_SEGMENTS // MOST_PART_SEGMENTS)
    counts, most = [], rng.randint(2, MOST_PART_SEGMENTS if style == "few" else MOST_SEGMENTS)
    while sum(counts) < most:
        counts.append(rng.randint(1, min(MOST_PART_SEGMENTS, most - sum(counts))))
    return counts


def beam_lists(rng):
    """Lengths, degrees and orders of a beam of several parts; the whole lies in
    the range of the breakpoints, with parts as long as may be now and then."""
    parts = [part_lists(rng, count) for count in part_counts(rng)]
    lengths, degrees, orders = joined_parts(parts)
    if sum(lengths) > 2 * BREAKPOINT_LIMIT:
        lengths = [rng.randint(1, MIDDLE) for _ in lengths]
    return lengths, degrees, orders


def space_lists(rng):
    """Breakpoints, degrees and orders that break no rule for lists."""
    style = pick(rng, [(85, "one part"), (15, "beam")])
    lists = part_lists(rng, segment_count(rng)) if style == "one part" else beam_lists(rng)
    lengths, degrees, orders = lists
    return breaks_from(rng, lengths), degrees, orders


# Lengths and degrees of spaces of order 2 beside the size limit: the least spans
# that are refused, one whose first refused fraction is exactly 2^31, spaces that
# come nearest to the limit from below and from above, and two where nothing but
# the first product of a new entry is too large.
NEAR_SIZE_LIMIT = [
    ([1, 20, 1], [5, 3, 4]), ([1, 20, 1], [4, 3, 5]), ([1, 19, 1], [5, 3, 4]),
    ([1, 1290], [3, 3]), ([1, 1289], [3, 3]), ([1290, 1], [3, 3]), ([1289, 1], [3, 3]),
    ([1024, 5], [3, 5]), ([59, 1252], [3, 3]), ([59, 1252], [4, 4]),
    ([133, 150], [3, 5]), ([545, 1011], [3, 3]), ([57, 15, 62], [4, 3, 4]),
    ([8, 17, 28, 4], [4, 3, 5, 5]), ([14, 6, 23, 22], [5, 5, 3, 4]),
    ([3, 1, 217], [5, 3, 4]), ([1, 2, 454], [5, 3, 4]),
]


def near_size_limit(rng):
    """One of the spaces above, or one whose longest segment differs a little."""
    lengths, degrees = rng.choice(NEAR_SIZE_LIMIT)
    moved = list(lengths)
    moved[moved.index(max(moved))] += rng.choice((0, 0, -2, -1, 1, 2))
    return moved, list(degrees)


def any_of_order_two(rng):
    segments = rng.randint(2, MOST_PART_SEGMENTS)
    degrees = [rng.randint(MOST_ORDER + 1, MOST_DEGREE) for _ in range(segments)]
    most = rng.choice((SHORT, 2 * SHORT, MIDDLE, SPAN_LIMIT // segments))
    return [rng.randint(1, most) for _ in range(segments)], degrees


def sized_space_lists(rng):
    """A space of order 2 near or over the size limit of counted fractions."""
    lengths, degrees = pick(rng, [(1, near_size_limit), (2, any_of_order_two)])(rng)
    parts = [(lengths, degrees, highest_orders(degrees))]
    if rng.random() < 0.3:                         # first, in the middle or last
        others = [part_lists(rng, rng.randint(1, SHORT)) for _ in range(rng.randint(1, FEW))]
        place = rng.randint(0, len(others))
        parts = others[:place] + parts + others[place:]
    lengths, degrees, orders = joined_parts(parts)
    return breaks_from(rng, lengths), degrees, orders


def row_count(degrees, orders):
    return sum(degrees) + len(degrees) - sum(order + 1 for order in orders)


def part_list(rng, count):
    """The coefficients of one part."""
    top = COEFFICIENT_LIMIT
    style = pick(rng, [(25, "any"), (20, "ends"), (20, "small"), (10, "one"),
                       (15, "growth"), (10, "spike")])
    if style == "any":
        return [rng.randint(-top, top) for _ in range(count)]
    if style == "ends":
        return [rng.choice((-top, top)) for _ in range(count)]
    if style == "small":
        return [rng.randint(-2, 2) for _ in range(count)]
    if style == "one":
        return [rng.choice((-top, -1, 0, 1, top))] * count
    if style == "growth":
        return sorted((rng.randint(0, SPAN_LIMIT) for _ in range(count)), reverse=True)
    coefs = [0] * count
    coefs[rng.randrange(count)] = rng.choice((-top, -1, 1, top))
    return coefs


def coef_list(rng, count):
    """The numbers of `count` pairs: drawn apart, with opposite signs (one part
    low where the other is not), one part flat, or alike."""
    early = part_list(rng, count)
    style = pick(rng, [(60, "apart"), (15, "opposite"), (15, "flat"), (10, "alike")])
    late = {"apart": part_list(rng, count), "opposite": [-coef for coef in early],
            "flat": [rng.choice((-1, 0, 1))] * count, "alike": early}[style]
    return side_by_side(rng.choice((zip(early, late), zip(late, early))))


def one_position(rng, breaks):
    first, last = UNIT * breaks[0], UNIT * breaks[-1]
    style = pick(rng, [(45, "any"), (25, "on a breakpoint"), (20, "beside one"),
                       (10, "on a ring")])
    if style == "any":
        return rng.randint(first, last)
    if style == "on a ring":
        return UNIT * rng.randint(breaks[0], breaks[-1])
    point = UNIT * rng.choice(breaks)
    if style == "beside one":
        point += rng.choice((-1, 1))
    return min(max(point, first), last)


def position_count(rng):
    return pick(rng, [(120, 0), (300, rng.randint(1, FEW)), (500, rng.randint(FEW, SOME)),
                      (70, rng.randint(SOME, MANY)), (4, MOST_POSITIONS)])


def arranged(rng, positions):
    style = pick(rng, [(60, "drawn"), (15, "rising"), (10, "falling"), (15, "repeated")])
    if style == "repeated":
        return [rng.choice(positions[:FEW]) for _ in positions]
    if style == "drawn":
        return positions
    return sorted(positions, reverse=style == "falling")


def around_breakpoints(breaks):
    """Every breakpoint, and the positions beside it on both sides."""
    first, last = UNIT * breaks[0], UNIT * breaks[-1]
    return [UNIT * point + side for point in breaks for side in (-1, 0, 1)
            if first <= UNIT * point + side <= last]


def position_list(rng, breaks):
    style = pick(rng, [(85, "drawn"), (15, "around every breakpoint")])
    if style == "drawn":
        return arranged(rng, [one_position(rng, breaks) for _ in range(position_count(rng))])
    positions = around_breakpoints(breaks)
    rng.shuffle(positions)
    return positions


def fill(rng):
    """Old contents that a table or a value is unlikely to hold."""
    return pick(rng, [(70, rng.randint(LOW_FILL, HIGH_FILL)), (10, LOW_FILL),
                      (10, HIGH_FILL), (10, rng.randint(-2, 2))])


def long_enough(rng, needed):
    return Lent(needed + rng.choice((0, 0, 1, rng.randint(0, SPARE_CELLS))), fill(rng))


def value_buffer(rng, positions):
    return long_enough(rng, PARTS * len(positions))


def weight_buffer(rng):
    return long_enough(rng, CELLS)
