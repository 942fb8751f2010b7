"""Random damage: each function breaks one rule of one call.

There is one function for each number from 1 to 7 and for 15. Damage to a list may
happen to leave it legal (a repeated draw, say); the model decides what a call
is answered, so nothing here promises a number.
"""

from limits import (BREAKPOINT_LIMIT, CELLS, COEFFICIENT_LIMIT, MOST_DEGREE,
                    MOST_ORDER, MOST_PART_SEGMENTS, MOST_POSITIONS, MOST_SEGMENTS, PARTS,
                    SPAN_LIMIT, UNIT)
from protocol import Lent
from random_spaces import MANY, SHORT, breaks_from, fill, joined_parts, part_lists, pick
from space import Space

EXTREMES = (-2 ** 31, -2 ** 31 + 1, 2 ** 31 - 1, 2 ** 31 - 2, -2 ** 30, 2 ** 30,
            2 ** 24, -2 ** 24, -2 ** 16, 2 ** 16, -1, 0, 1)
SPACE_FIELDS = ("breaks", "degrees", "orders")
LIST_FIELDS = SPACE_FIELDS + ("coefs", "positions")


def with_entry(entries, place, entry):
    return entries[:place] + [entry] + entries[place + 1:]


def any_place(rng, entries):
    return rng.randrange(len(entries))


def short_length(rng, needed):
    return rng.choice((0, 1, needed - 1, needed - 1, rng.randint(0, needed - 1)))


def short_buffer(rng, call):
    """Number 1, one buffer or several."""
    names = ["num", "den"] + ["values"] * bool(call.positions)
    chosen = rng.sample(names, rng.choice((1, 1, 1, len(names))))
    needs = {"num": CELLS, "den": CELLS, "values": PARTS * len(call.positions)}
    short = {name: short_length(rng, needs[name]) for name in chosen}
    if "values" in chosen and rng.random() < 0.3:
        short["values"] = len(call.positions)     # a cell for each position
    return call._replace(**{name: Lent(length, fill(rng)) for name, length in short.items()})


def one_list_off(rng, call):
    name = rng.choice(SPACE_FIELDS)
    entries = getattr(call, name)
    changed = rng.choice((entries[:-1], entries + entries[-1:], entries + [1], entries[1:], []))
    return call._replace(**{name: changed})


def bad_segment_count(rng, call):
    """Lists that fit each other, but with none or too many segments."""
    over = MOST_SEGMENTS + 1
    segments = rng.choice((0, over, over + 1, rng.randint(over, MANY)))
    return call._replace(breaks=breaks_from(rng, [1] * segments), degrees=[1] * segments,
                         orders=[0] * max(segments - 1, 0))


def too_many_positions(rng, call):
    """Number 2, place 1; number 1, place 2, where the values are short too;
    number 2, place 0, where the lists don't fit either."""
    count = MOST_POSITIONS + rng.choice((1, 1, rng.randint(1, MANY)))
    needed = PARTS * count
    lent = pick(rng, [(70, needed), (15, needed - 1), (10, PARTS * MOST_POSITIONS), (5, 0)])
    call = call._replace(positions=[rng.choice(call.positions or [0])] * count,
                         values=Lent(lent, fill(rng)))
    return call if rng.random() < 0.6 else one_list_off(rng, call)


def bad_lengths(rng, call):
    ways = [(50, one_list_off), (20, bad_segment_count)]
    if call.kind == "curve":
        ways.append((10, too_many_positions))
    return pick(rng, ways)(rng, call)


def over_long_span(rng, call):
    """One part too long; the others short, or as long as a part may be."""
    parts = Space(call.breaks, call.degrees, call.orders).parts()
    chosen = rng.randrange(len(parts))
    room = len(parts) <= SHORT
    lengths = []
    for place, (first, end) in enumerate(parts):
        part = [rng.randint(1, SHORT) for _ in range(first, end)]
        if place == chosen:
            over = rng.choice((1, 1, 2, rng.randint(1, SPAN_LIMIT)))
            part[rng.randrange(end - first)] += SPAN_LIMIT + over - sum(part)
        elif room and rng.random() < 0.3:
            part[0] += SPAN_LIMIT - sum(part)
        lengths += part
    return call._replace(breaks=breaks_from(rng, lengths))


def bad_breakpoint(rng, call):
    if rng.random() < 0.3:
        return over_long_span(rng, call)
    place = any_place(rng, call.breaks)
    before = call.breaks[place - 1]
    entry = rng.choice((before, before - 1, -BREAKPOINT_LIMIT - 1, BREAKPOINT_LIMIT + 1,
                        rng.choice(EXTREMES)))
    return call._replace(breaks=with_entry(call.breaks, place, entry))


def bad_degree(rng, call):
    entry = rng.choice((0, MOST_DEGREE + 1, -1, rng.choice(EXTREMES)))
    place = any_place(rng, call.degrees)
    return call._replace(degrees=with_entry(call.degrees, place, entry))


def bad_order(rng, call):
    """An order out of range, or equal to the smaller neighbouring degree."""
    if not call.orders:
        return bad_degree(rng, call)
    place = any_place(rng, call.orders)
    near = min(call.degrees[place], call.degrees[place + 1])
    entry = rng.choice((near, near, MOST_ORDER + 1, -2, rng.choice(EXTREMES)))
    return call._replace(orders=with_entry(call.orders, place, entry))


def crowded_part(rng, call):
    """Number 15: a part with more than 12 segments, among others or alone."""
    crowded = MOST_PART_SEGMENTS + rng.choice((1, 1, 1, rng.randint(1, MOST_PART_SEGMENTS)))
    others = [part_lists(rng, rng.randint(1, SHORT)) for _ in range(rng.randint(0, SHORT))]
    degrees = [rng.randint(1, MOST_DEGREE) for _ in range(crowded)]
    part = ([rng.randint(1, SHORT) for _ in degrees], degrees, [0] * (crowded - 1))
    place = rng.randint(0, len(others))
    lengths, degrees, orders = joined_parts(others[:place] + [part] + others[place:])
    if sum(lengths) > 2 * BREAKPOINT_LIMIT:
        lengths = [rng.randint(1, SHORT) for _ in lengths]
    return call._replace(breaks=breaks_from(rng, lengths), degrees=degrees, orders=orders)


def bad_coefficient(rng, call):
    if rng.random() < 0.4 or not call.coefs:
        given = len(call.coefs)
        count = rng.choice((0, given - 1, given + 1, given - PARTS, given + PARTS,
                            given // PARTS, rng.randint(0, MANY)))
        return call._replace(coefs=(call.coefs * MANY)[:max(count, 0)])
    beyond = COEFFICIENT_LIMIT + 1
    entry = rng.choice((beyond, -beyond, rng.choice(EXTREMES)))
    return call._replace(coefs=with_entry(call.coefs, any_place(rng, call.coefs), entry))


def bad_position(rng, call):
    """A position outside the span; now and then far down a long list."""
    positions = call.positions or [UNIT * call.breaks[0]]
    if rng.random() < 0.3:
        positions = (positions * MOST_POSITIONS)[:rng.choice((MANY, MOST_POSITIONS))]
    entry = rng.choice((UNIT * call.breaks[0] - 1, UNIT * call.breaks[-1] + 1,
                        UNIT * call.breaks[-1] + UNIT, rng.choice(EXTREMES)))
    lent = call.values._replace(length=max(call.values.length, PARTS * len(positions)))
    return call._replace(positions=with_entry(positions, any_place(rng, positions), entry),
                         values=lent)


BUILD_DAMAGE = [short_buffer, bad_lengths, bad_breakpoint, bad_degree, bad_order, crowded_part]
CURVE_DAMAGE = BUILD_DAMAGE + [bad_coefficient, bad_position]


def extreme_entries(rng, call):
    """A few entries of any lists replaced by extreme 32-bit numbers."""
    for name in rng.sample(LIST_FIELDS, 2):
        entries = getattr(call, name)
        if entries:
            changed = with_entry(entries, any_place(rng, entries), rng.choice(EXTREMES))
            call = call._replace(**{name: changed})
    return call


def list_fields(call):
    return LIST_FIELDS if call.kind == "curve" else SPACE_FIELDS


def wild_lists(rng, call):
    """Lists of any length with any content."""
    def wild():
        count = rng.choice((0, 1, 2, rng.randint(0, SHORT * SHORT)))
        return [rng.choice(EXTREMES) for _ in range(count)]
    return call._replace(**{name: wild() for name in list_fields(call)})


def huge_list(rng, call):
    """One list far longer than any rule allows."""
    count = rng.randint(MOST_POSITIONS, SHORT * MOST_POSITIONS)
    return call._replace(**{rng.choice(list_fields(call)): [rng.choice(EXTREMES)] * count})


def damaged(rng, call, times):
    """Several damages of different numbers, the highest number first: what
    breaks a list's length comes after what breaks its entries."""
    ways = BUILD_DAMAGE if call.kind == "build" else CURVE_DAMAGE
    for number in sorted(rng.sample(range(len(ways)), times), reverse=True):
        call = ways[number](rng, call)
    return call
