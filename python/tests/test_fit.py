"""Fitting: the template, least squares over the exact weights, and what the widths don't determine."""

from __future__ import annotations

from fractions import Fraction
from math import comb
from random import Random

import numpy as np
import pytest
from hypothesis import given, settings
from hypothesis import strategies as st
from random_spaces import space_lists
from scipy.optimize import nnls

from walzhik import Curve, Refused, Space
from walzhik.fit import SHAPES, Unfittable, bernstein, closeness, design, fit, segments_at, template
from walzhik.fit_shape import is_determined
from walzhik.limits import UNIT
from walzhik.recover import nearest, recover


@pytest.mark.parametrize("rings", [*range(2, 160), 499, 500, 501, 1999, 2000, 2001])
def test_every_template_is_accepted_and_determined(rings: int) -> None:
    space = template(rings, 1700)
    assert space.breaks[0] == 1700 and space.breaks[-1] == 1700 + rings - 1
    assert space.orders.max(initial=0) <= 1
    assert design(space, 1700, rings).is_determined


def test_a_template_is_cubic_in_young_wood() -> None:
    space = template(300, 1)
    assert space.degrees.tolist() == [3, 2, 2, 2] and space.orders.tolist() == [1, 1, 1]
    assert space.breaks.tolist() == [1, 31, 91, 171, 300]


def test_a_template_begins_anew_after_a_scar() -> None:
    space = template(200, 1801, [1900, 1903])
    assert space.breaks.tolist() == [1801, 1831, 1900, 1903, 1933, 2000]
    assert space.degrees.tolist() == [3, 2, 1, 3, 2] and space.orders.tolist() == [1, -1, -1, 1]
    assert design(space, 1801, 200).is_determined
    for scars in ([1801], [1999], [1900, 1901], [1900, 1900], [1700]):
        with pytest.raises(Unfittable, match="A part between scars has .*at least 2"):
            template(200, 1801, scars)


@pytest.mark.parametrize("rings", [0, 1])
def test_too_few_rings_have_no_template(rings: int) -> None:
    with pytest.raises(Unfittable, match="at least 2"):
        template(rings)


def test_too_many_rings_need_a_scar() -> None:
    with pytest.raises(Unfittable, match="2,002 rings.*at most 2,001 without a scar"):
        template(2002)


def accepted_space(rng: Random) -> Space:
    """A random space; one of order 2 whose fractions are too large is drawn again."""
    while True:
        try:
            return Space(*space_lists(rng))
        except Refused as refusal:
            assert refusal.number == 8


@pytest.mark.parametrize("seed", range(40))
def test_the_design_is_the_curve_at_the_rings(seed: int) -> None:
    """What the design's matrix makes of coefficients is the engine's value, up to the engine's rounding."""
    rng = Random(seed)
    space = accepted_space(rng)
    first, last = int(space.breaks[0]), int(space.breaks[-1])
    rings = min(last - first + 1, 4096)
    coefficients = np.array([rng.randint(-1000, 1000) for _ in range(space.n)], dtype=np.int32)
    values = Curve(space, coefficients).values(UNIT * np.arange(first, first + rings))[:, 0]
    matrix = design(space, first, rings).matrix
    assert np.abs(UNIT * (matrix @ coefficients) - values).max() <= 4 + 1e-6
    assert np.abs(matrix.sum(axis=1) - 1).max() < 1e-12


def test_segments_are_those_that_the_engine_reads() -> None:
    lists = Space([0, 10, 20, 30], [2, 2, 2], [1, -1]).lists()
    assert segments_at(lists, np.array([0, 9, 10, 19, 20, 21, 30])).tolist() == [0, 0, 1, 1, 1, 2, 2]


@given(st.integers(1, 5), st.floats(0, 1))
def test_bernstein_polynomials_sum_to_one(degree: int, at: float) -> None:
    assert bernstein(degree, np.array([at])).sum() == pytest.approx(1)


@settings(max_examples=60)
@given(st.integers(2, 220), st.integers(0, 2**32 - 1))
def test_a_fit_is_the_bounded_least_squares_solution(rings: int, seed: int) -> None:
    """Against nnls on the whole matrix, and no coefficient below one."""
    random = np.random.default_rng(seed)
    widths = random.integers(1, 4000, rings)
    space = template(rings, 100)
    fitted = fit(space, widths, 100, "free")
    assert fitted.coefficients.min() >= 1
    expected = 1 + nnls(design(space, 100, rings).matrix, widths - 1.0)[0]
    assert np.abs(fitted.coefficients - expected).max() <= 0.5 + 1e-4 * expected.max()


def test_widths_on_a_curve_are_fitted_exactly() -> None:
    space = Space([1703, 1713, 1733, 1802], [3, 3, 2], [1, 1])
    coefficients = [3000, 2500, 2000, 1500, 1100, 800, 700]
    values = Curve(space, coefficients).values(UNIT * np.arange(1703, 1803))[:, 0]
    for shape in SHAPES:
        fitted = fit(space, (values + UNIT // 2) // UNIT, 1703, shape)
        assert np.abs(fitted.coefficients - coefficients).max() <= (500 if shape == "hump" else 3)
        assert fitted.closeness().share_explained == pytest.approx(1, abs=1e-2 if shape == "hump" else 1e-5)


def test_absent_rings_are_left_out() -> None:
    space = Space([0, 9], [1], [])
    widths = np.arange(1000, 2000, 100)
    holes = widths.copy()
    holes[[2, 5]] = 0
    assert fit(space, holes, 0).coefficients.tolist() == fit(space, widths, 0).coefficients.tolist() == [1000, 1900]


def test_coefficients_stay_above_zero() -> None:
    """A straight line through these widths would end below zero."""
    fitted = fit(Space([0, 4], [1], []), [900, 300, 1, 1, 1], 0)
    assert fitted.coefficients.tolist()[1] == 1
    assert fitted.curve.indices([1] * 5, 0).min() >= 0


def test_a_beam_is_fitted_over_its_scar() -> None:
    space = Space([0, 20, 40], [1, 1], [-1])
    widths = [1000] * 21 + [2000] * 20
    assert fit(space, widths, 0).coefficients.tolist() == [1000, 1000, 2000, 2000]


def test_undetermined_curves_are_refused_with_the_stretch() -> None:
    with pytest.raises(Unfittable, match="2 rings in stretch 0, 40 rings in stretch 1"):
        fit(Space([0, 2, 41], [5, 1], [0]), np.full(42, 700), 0)
    with pytest.raises(Unfittable, match="no rings in stretch 0"):
        fit(Space([0, 5], [1], []), [0] * 6, 0)


def test_the_engine_says_which_ring_is_outside() -> None:
    with pytest.raises(Refused, match="no=7,2: Width 2 of the series is ring 6"):
        fit(Space([0, 5], [1], []), [1, 1, 1], 4)
    with pytest.raises(Refused, match="no=14,1"):
        fit(Space([0, 5], [1], []), [1, 100_000, 1], 0)


def test_more_rings_than_one_call_takes() -> None:
    space = Space([0, 2000, 4000, 6000], [1, 1, 1], [-1, -1])
    fitted = fit(space, np.full(6001, 800), 0)
    assert fitted.coefficients.tolist() == [800] * 6 and fitted.closeness().mean_square == 0


def test_closeness_of_equal_widths_has_no_share() -> None:
    assert closeness(np.array([5, 5, 0]), np.array([5 * UNIT, 5 * UNIT, 1])) == (0.0, None)


def test_the_nearest_of_exact_ordinates_are_the_exact_ones() -> None:
    space = Space([0, 20, 60], [2, 2], [1])
    ordinates = [614400, 409600, 358400, 358400, 256000, 230400]
    assert recover(space, ordinates) == nearest(space, ordinates).tolist() == [2400, 1600, 1000, 900]
    moved = [*ordinates[:3], ordinates[3] + 256, *ordinates[4:]]
    with pytest.raises(Refused, match="no=19,0: .* differ by 1 thousandths"):
        recover(space, moved)
    assert np.abs(nearest(space, moved) - [2400, 1600, 1000, 900]).max() <= 1


def test_nearest_refuses_what_is_no_ordinate() -> None:
    space = Space([0, 2], [1], [])
    with pytest.raises(Refused, match="no=18,0"):
        nearest(space, [10**12, 0])
    with pytest.raises(Refused, match="no=18,4294967295"):
        nearest(space, [0])


def test_a_part_without_rings_is_told() -> None:
    with pytest.raises(Unfittable, match="10 rings in stretch 0, no rings in stretch 1"):
        fit(Space([0, 20, 40], [1, 1], [-1]), [900] * 10, 0)


def test_an_undetermined_design_is_refused() -> None:
    """The second part has seven coefficients and six rings, as many in all as the first part has rings to spare."""
    space = Space([0, 5, 8, 11], [3, 4, 4], [-1, 2])
    with pytest.raises(Unfittable, match="don't determine the curve"):
        fit(space, [900, 800, 0, 700, 650, 640, 600, 590, 550, 500, 480, 470], 0)


@pytest.mark.parametrize("seed", range(60))
def test_what_is_determined_is_so_by_exact_numbers(seed: int) -> None:
    """The rank of random designs with absent rings, against the rank in exact fractions."""
    rng = Random(seed)
    space = accepted_space(rng)
    first = int(space.breaks[0])
    rings = min(int(space.breaks[-1]) - first + 1, 60)
    present = [ring for ring in range(first, first + rings) if rng.random() < 0.8]
    is_present = np.isin(np.arange(first, first + rings), present)
    found = is_determined(design(space, first, rings).matrix, is_present)
    assert found == (exact_rank(space, present) == space.n)


def exact_rank(space: Space, rings: list[int]) -> int:
    """The rank of what the coefficients weigh at rings, by elimination in fractions."""
    lists, weights = space.lists(), {}
    for row, column, weight in space.weights.fractions():
        weights.setdefault(column, {})[row] = weight
    starts = [sum(lists.degrees[:at]) + at for at in range(len(lists.degrees))]
    rows = []
    for ring, segment in zip(rings, segments_at(lists, np.array(rings, dtype=np.int64)).tolist()):
        degree, start, end = lists.degrees[segment], lists.breaks[segment], lists.breaks[segment + 1]
        share = Fraction(ring - start, end - start)
        line = [Fraction(0)] * space.n
        for power in range(degree + 1):
            blend = comb(degree, power) * share**power * (1 - share) ** (degree - power)
            for row, weight in weights.get(starts[segment] + power, {}).items():
                line[row] += blend * weight
        rows.append(line)
    return rank(rows, space.n)


def rank(rows: list[list[Fraction]], columns: int) -> int:
    found = 0
    for column in range(columns):
        pivot = next((at for at in range(found, len(rows)) if rows[at][column]), None)
        if pivot is None:
            continue
        rows[found], rows[pivot] = rows[pivot], rows[found]
        for at in range(found + 1, len(rows)):
            if rows[at][column]:
                share = rows[at][column] / rows[found][column]
                rows[at] = [left - share * right for left, right in zip(rows[at], rows[found])]
        found += 1
    return found


@pytest.mark.parametrize("width", [1, 333, 701, 99_999])
def test_equal_widths_have_no_variance_to_explain(width: int) -> None:
    fitted = fit(Space([0, 9], [1], []), [width] * 10, 0)
    assert fitted.closeness().share_explained is None


def test_rows_at_the_least_coefficient() -> None:
    steep = fit(Space([0, 9], [2], []), [3000, 900, 100, 30, 10, 5, 1, 1, 1, 900], 0, "free")
    assert steep.least_rows and all(steep.coefficients[row] == 1 for row in steep.least_rows)
    assert fit(Space([0, 9], [1], []), [900] * 10, 0).least_rows == []
