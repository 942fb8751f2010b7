"""Cases for the tests of the R package: random calls with what the rational program says of them, a line a call.

R always lends long enough buffers and holds every 32-bit number but the least, so number 1 and that number are left out. A line
is words of the form name=entries; texts and names are in hexadecimal digits. Every number that a call can give from R comes up,
or no file is made.
"""

import sys
from pathlib import Path
from random import Random

sys.path.insert(0, str(Path(__file__).resolve().parent))

from compare_indices import random_rings  # noqa: E402
from cleaning import cleaned  # noqa: E402
from generate import random_call  # noqa: E402
from indices import indices_outcome  # noqa: E402
from limits import CELLS, PARTS, UNIT  # noqa: E402
from pieces import piece_outcome  # noqa: E402
from protocol import Lent  # noqa: E402
from random_files import random_file  # noqa: E402
from random_ordinates import random_ordinates  # noqa: E402
from random_pieces import random_piece  # noqa: E402
from random_reach import random_reach  # noqa: E402
from random_tucson import random_lists, random_text  # noqa: E402
from reach import reach_outcome  # noqa: E402
from space import Refusal  # noqa: E402
from tucson import Series, read_tucson, write_tucson  # noqa: E402
from walzhik_reference import side_by_side  # noqa: E402

SEED = 39
LEAST_INT, MOST_INT = -2 ** 31, 2 ** 31 - 1
MOST_CHARACTERS = 1_500      # of a line: long cases say no more here
ANSWERS, REFUSALS = 40, 4    # of each call, and of each of its numbers
MOST_DRAWS = 40_000
SPACE_WORDS = ("breaks", "degrees", "orders")
SPACE_NUMBERS = {2, 3, 4, 5, 8, 15}
CURVE_NUMBERS = SPACE_NUMBERS | {6}


def listed(numbers):
    return ",".join(map(str, numbers))


def line_of(**words):
    return " ".join(f"{word}={entries if isinstance(entries, str) else listed(entries)}" for word, entries in words.items())


def holds(*lists):
    """Whether R's integers hold all of these numbers."""
    return all(LEAST_INT < number <= MOST_INT for numbers in lists for number in numbers)


def space_words(call):
    return {word: getattr(call, word) for word in SPACE_WORDS}


def weight_list(rows):
    """Row, column, numerator and denominator of each non-zero weight, rows rising, then columns."""
    return [number for row, weights in enumerate(rows or []) for column, weight in sorted(weights.items())
            for number in (row, column, weight.numerator, weight.denominator)]


# Each gives the number of a drawn call and its line, or None where R can't ask it.

def build_case(rng):
    call = random_call(rng, "build")._replace(num=Lent(CELLS, 0), den=Lent(CELLS, 0))
    if not holds(call.breaks, call.degrees, call.orders):
        return None
    outcome = call.outcome()
    weights = weight_list(outcome.rows)
    return outcome.reply.number, line_of(**space_words(call), reply=outcome.reply, weights=weights)


def curve_case(rng):
    call = random_call(rng, "curve")
    call = call._replace(num=Lent(CELLS, 0), den=Lent(CELLS, 0), values=Lent(PARTS * len(call.positions), 0))
    if not holds(call.breaks, call.degrees, call.orders, call.coefs, call.positions):
        return None
    outcome = call.outcome()
    return outcome.reply.number, line_of(**space_words(call), coefs=call.coefs, at=call.positions, reply=outcome.reply,
                                         values=side_by_side(outcome.values or []))


def index_case(rng):
    rings = random_rings(rng)
    spaces = [rings.lists[word] for word in SPACE_WORDS]
    if not holds(*spaces, rings.lists["coefs"], [rings.first], rings.widths):
        return None
    count = len(rings.widths)
    outcome = indices_outcome(rings.part, spaces, rings.lists["coefs"], rings.first, rings.widths, CELLS, CELLS,
                              PARTS * count, count)
    reply = outcome.curve.reply
    return reply.number, line_of(wood=rings.part, **rings.lists, first=[rings.first], widths=rings.widths, reply=reply,
                                 indices=outcome.indices or [])


def reach_case(rng):
    call = random_reach(rng)
    if not holds(call.breaks, call.degrees, call.orders, call.coefs, [call.width]):
        return None
    outcome = reach_outcome(call.part, [call.breaks, call.degrees, call.orders], call.coefs, call.width, CELLS, CELLS)
    reply = outcome.curve.reply
    return reply.number, line_of(wood=call.part, **space_words(call), coefs=call.coefs, width=[call.width], reply=reply,
                                 position=[outcome.position])


def piece_case(rng):
    call = random_piece(rng)
    if not holds(call.breaks, call.degrees, call.orders, call.coefs, [call.segment]):
        return None
    outcome = piece_outcome(call.part, [call.breaks, call.degrees, call.orders], call.coefs, call.segment, CELLS, CELLS)
    drawn, reply = outcome.piece, outcome.curve.reply
    numbers = [drawn.start, drawn.end, *(UNIT * ordinate for ordinate in drawn.ordinates)] if drawn else []
    return reply.number, line_of(wood=call.part, **space_words(call), coefs=call.coefs, segment=[call.segment], reply=reply,
                                 piece=numbers)


def coefficient_case(rng):
    call = random_ordinates(rng)
    if not holds(*call.lists.values()):
        return None
    recovery = call.recovery([CELLS, CELLS, len(call.lists["ordinates"]), len(call.lists["ordinates"])])
    reply = recovery.outcome.reply
    answers = (recovery.answers or [])[:reply.count]
    return reply.number, line_of(**call.lists, reply=reply, numerator=[answer.numerator for answer in answers],
                                 denominator=[answer.denominator for answer in answers])


def series_words(series):
    return {"names": b"".join(each.name for each in series).hex(), "years": [each.first_year for each in series],
            "counts": [len(each.widths) for each in series], "widths": [width for each in series for width in each.widths]}


def read_case(rng):
    text = random_text(rng)
    try:
        series, reply = read_tucson(text), None
    except Refusal as refusal:
        series, reply = [], (0, refusal.number, refusal.place)
    reply = reply or (len(series), 0, 0)
    return reply[1], line_of(text=text.hex(), reply=reply, **series_words(series))


def clean_case(rng):
    text, header, unit = random_file(rng)
    if not holds([header], [unit]):
        return None
    try:
        made, lines, noted = cleaned(text, header, unit)
        reply = (len(lines), 0, 0)
    except Refusal as refusal:
        made, lines, noted, reply = b"", [], [], (0, refusal.number, refusal.place)
    return reply[1], line_of(text=text.hex(), header=[header], unit=[unit], reply=reply, made=made.hex(), lines=lines,
                             notes=[cell for line, note in noted for cell in (note, line)])


def write_case(rng):
    names, years, counts, widths = random_lists(rng)
    if not holds(years, counts, widths) or sum(counts) != len(widths) or not len(names) == 8 * len(years) == 8 * len(counts):
        return None
    ends = [sum(counts[:place + 1]) for place in range(len(counts))]
    series = [Series(bytes(names[8 * place:8 * place + 8]), years[place], tuple(widths[end - counts[place]:end]))
              for place, end in enumerate(ends)]
    try:
        text = write_tucson(series)
        reply = (len(text), 0, 0)
    except Refusal as refusal:
        text, reply = b"", (0, refusal.number, refusal.place)
    return reply[1], line_of(**series_words(series), reply=reply, text=text.hex())


KINDS = {
    "build": (build_case, SPACE_NUMBERS),
    "curve": (curve_case, CURVE_NUMBERS | {7}),
    "indices": (index_case, CURVE_NUMBERS | {7, 14}),
    "reach": (reach_case, CURVE_NUMBERS | {16}),
    "piece": (piece_case, CURVE_NUMBERS | {17}),
    "coefficients": (coefficient_case, SPACE_NUMBERS | {18, 19, 20}),
    "tucson_clean": (clean_case, {11, 12, 13, 21, 22, 23, 24, 25, 26}),
    "tucson_read": (read_case, {11, 12, 13}),
    "tucson_write": (write_case, {11}),
}


def case_text(name, draw, numbers):
    """The lines of one call: so many answers, and so many of each refusal, in the order in which they were drawn."""
    rng = Random(f"{SEED} {name}")
    left = {0: ANSWERS} | dict.fromkeys(numbers, REFUSALS)
    lines = []
    for _ in range(MOST_DRAWS):
        drawn = draw(rng)
        if drawn is None or left.get(drawn[0], 0) == 0 or len(drawn[1]) > MOST_CHARACTERS:
            continue
        left[drawn[0]] -= 1
        lines.append(drawn[1])
        if not any(left.values()):
            return "".join(f"{line}\n" for line in lines)
    raise SystemExit(f"r_cases: too few {name} calls: {left} are left to draw")


def case_files():
    """Each file's text by its name."""
    return {f"{name}.txt": case_text(name, draw, numbers) for name, (draw, numbers) in KINDS.items()}
