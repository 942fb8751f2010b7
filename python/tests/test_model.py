"""The package against the rational program in exact fractions, which shares nothing with the engine but the papers:
random calls of every kind, answered and refused, must give the same numbers, or the same refusal with words for it.
"""

from __future__ import annotations

from collections import Counter
from collections.abc import Callable, Iterator
from random import Random
from typing import Any

import numpy as np
import pytest
from calls import build_outcome, curve_outcome
from compare_indices import random_rings
from generate import random_call
from indices import indices_outcome
from limits import CELLS
from pieces import piece_outcome
from random_ordinates import random_ordinates
from random_pieces import random_piece
from random_reach import random_reach
from random_tucson import random_lists, random_text
from reach import reach_outcome
from recovery import coefficients_outcome
from space import Refusal
from space import Space as ModelSpace
from tucson import read_tucson, tucson_write

from walzhik import Curve, Refused, Space, tucson
from walzhik._engine import MOST_POSITIONS
from walzhik.recover import recover

SEED, COUNT = 1, 400
WITHOUT_WORDS = "There are no words"


def answered(call: Callable[[], Any]) -> Any:
    """What a call gives, or its refusal as number and place, which must have words."""
    try:
        return call()
    except Refused as refusal:
        assert not refusal.words.startswith(WITHOUT_WORDS), refusal
        assert refusal.words.isascii() and refusal.remedy
        return refusal.number, refusal.place


def first_refusal(*replies: Any) -> tuple[int, int] | None:
    """The package asks in steps, the space first: the first refusal of these."""
    for reply in replies:
        if reply.number:
            return reply.number, reply.place
    return None


def made(lists: tuple[list[int], ...], coefs: list[int]) -> Curve:
    pairs = np.array(coefs, dtype=object).reshape(-1, 2)
    return Curve(Space(*lists), pairs)


def steps(lists: tuple[list[int], ...], coefs: list[int]) -> list[Any]:
    """The model's replies to a space and to its coefficients."""
    space = build_outcome(*lists, CELLS, CELLS).reply
    return [space, curve_outcome(*lists, coefs, [], CELLS, CELLS, 0).reply]


def random_cases(draw: Callable[[Random], Any], count: int = COUNT) -> list[Any]:
    rng = Random(SEED)
    return [draw(rng) for _ in range(count)]


def test_weights() -> None:
    seen: Counter[int] = Counter()
    for call in random_cases(lambda rng: random_call(rng, "build")):
        lists = (call.breaks, call.degrees, call.orders)
        outcome = build_outcome(*lists, CELLS, CELLS)
        seen[outcome.reply.number] += 1
        got = answered(lambda: Space(*lists))
        if outcome.reply.number:
            assert got == (outcome.reply.number, outcome.reply.place)
            continue
        expected = [
            (row, column, weight) for row, cells in enumerate(outcome.rows) for column, weight in sorted(cells.items())
        ]
        assert got.n == outcome.reply.count
        assert list(got.weights.fractions()) == expected
    assert {0, 2, 3, 4, 5, 8, 15} <= set(seen)


def test_values() -> None:
    seen: Counter[int] = Counter()
    for call in random_cases(lambda rng: random_call(rng, "curve")):
        lists, positions = (call.breaks, call.degrees, call.orders), call.positions
        if len(call.coefs) % 2:
            continue
        outcome = curve_outcome(*lists, call.coefs, positions, CELLS, CELLS, 2 * len(positions))
        refused = first_refusal(*steps(lists, call.coefs), outcome.reply)
        got = answered(lambda: made(lists, call.coefs).values(positions))
        seen[refused[0] if refused else 0] += 1
        if refused:
            assert got == refused
        else:
            assert [tuple(pair) for pair in got.tolist()] == [tuple(pair) for pair in outcome.values]
    assert {0, 2, 3, 4, 5, 6, 7, 8, 15} <= set(seen)


def test_indices() -> None:
    seen: Counter[int] = Counter()
    for call in random_cases(random_rings, 2 * COUNT):
        lists = tuple(call.lists[name] for name in ("breaks", "degrees", "orders"))
        coefs, widths = call.lists["coefs"], call.widths
        if len(coefs) % 2 or len(widths) > MOST_POSITIONS:  # the package puts more rings to the engine in several calls
            continue
        lengths = (CELLS, CELLS, 2 * len(widths), len(widths))
        outcome = indices_outcome(call.part, lists, coefs, call.first, widths, *lengths)
        refused = first_refusal(*steps(lists, coefs), outcome.curve.reply)
        got = answered(lambda: made(lists, coefs).indices(widths, call.first, call.part))
        seen[refused[0] if refused else 0] += 1
        assert got == refused if refused else got.tolist() == outcome.indices
    assert {0, 2, 3, 4, 5, 6, 7, 8, 14, 15} <= set(seen)


def curve_cases(
    draw: Callable[[Random], Any], model: Callable[..., Any], ask: Callable[[Curve, Any], Any], number: str
) -> Iterator[tuple[tuple[int, int] | None, Any, Any]]:
    """Random calls of a curve with a number of their own: the model's refusal, its outcome, and what the package gives."""
    for call in random_cases(draw):
        lists = (call.breaks, call.degrees, call.orders)
        if len(call.coefs) % 2:
            continue
        outcome = model(call.part, lists, call.coefs, getattr(call, number), CELLS, CELLS)
        refused = first_refusal(*steps(lists, call.coefs), outcome.curve.reply)
        yield refused, outcome, answered(lambda: ask(made(lists, call.coefs), call))


def test_reach() -> None:
    seen: Counter[int] = Counter()

    def reached(curve: Curve, call: Any) -> Any:
        return curve.reach(call.width, call.part)

    for refused, outcome, got in curve_cases(random_reach, reach_outcome, reached, "width"):
        seen[refused[0] if refused else 0] += 1
        assert got == (refused if refused else outcome.position)
    assert {0, 16} <= set(seen)


def test_pieces() -> None:
    seen: Counter[int] = Counter()

    def drawn(curve: Curve, call: Any) -> Any:
        return curve.piece(call.segment, call.part)

    for refused, outcome, got in curve_cases(random_piece, piece_outcome, drawn, "segment"):
        seen[refused[0] if refused else 0] += 1
        if refused:
            assert got == refused
        else:
            assert [*got.ordinates, got.start, got.end] == [
                *outcome.piece.ordinates,
                outcome.piece.start,
                outcome.piece.end,
            ]
            assert got.degree == len(outcome.piece.ordinates) - 1
    assert {0, 17} <= set(seen)


def test_coefficients() -> None:
    seen: Counter[int] = Counter()
    for call in random_cases(random_ordinates, 2 * COUNT):
        lists, ordinates = tuple(call.lists[name] for name in ("breaks", "degrees", "orders")), call.lists["ordinates"]
        outcome = coefficients_outcome(ModelSpace(*lists), ordinates, CELLS, CELLS, len(ordinates), len(ordinates))
        refused = first_refusal(build_outcome(*lists, CELLS, CELLS).reply, outcome.outcome.reply)
        got = answered(lambda: recover(Space(*lists), ordinates))
        seen[refused[0] if refused else 0] += 1
        if refused:
            assert got == refused
        else:
            assert [256 * fraction for fraction in got] == outcome.answers[: len(got)]
    assert {0, 18, 19, 20} <= set(seen)


def test_tucson_texts() -> None:
    seen: Counter[int] = Counter()
    for text in random_cases(random_text, 2 * COUNT):
        got = answered(lambda: tucson.read(text, strict=True))
        try:
            expected = read_tucson(text)
        except Refusal as refusal:
            seen[refusal.number] += 1
            assert got == (refusal.number, refusal.place)
            continue
        seen[0] += 1
        assert [(each.columns, each.first, tuple(each.widths.tolist())) for each in got] == [
            tuple(each) for each in expected
        ]
    assert {0, 11, 12, 13} <= set(seen)


def test_tucson_lists() -> None:
    """Lists that are series, good ones and others, are written or refused as the model does it."""
    seen: Counter[int] = Counter()
    for names, years, counts, widths in random_cases(random_lists, 2 * COUNT):
        if len(names) != 8 * len(years) or len(counts) != len(years) or sum(counts) != len(widths):
            continue
        columns = [bytes(names[8 * place : 8 * place + 8]) for place in range(len(years))]
        if not all(name.isascii() for name in columns):
            continue
        ends = np.cumsum(counts, dtype=int).tolist()
        series = [
            tucson.Series(name.decode("ascii").rstrip(" "), year, widths[end - count : end])
            for name, year, count, end in zip(columns, years, counts, ends)
        ]
        reply, text = tucson_write(names, years, counts, widths, bytes(20 * (len(widths) + len(years))))
        got = answered(lambda: tucson.write(series))
        seen[reply.number] += 1
        assert got == ((reply.number, reply.place) if reply.number else bytes(text[: reply.count]))
    assert {0, 11} <= set(seen)


@pytest.mark.parametrize("number", [3, 7])
def test_numbers_past_32_bits_are_refused_as_large_ones_are(number: int) -> None:
    """What 32 bits can't hold becomes the nearest number that they can, which is refused all the same."""
    far = 10**30
    if number == 3:
        assert answered(lambda: Space([0, far], [1], [])) == (3, 1)
        assert answered(lambda: Space([-far, 0], [1], [])) == (3, 0)
    else:
        curve = Curve(Space([0, 1], [1], []), [1, 1])
        assert answered(lambda: curve.values([0, far])) == (7, 1)
        assert answered(lambda: curve.indices([1], -far)) == (7, 0)
        assert answered(lambda: curve.reach(far)) == (16, 0)
