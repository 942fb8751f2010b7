"""The shapes of fits: falling lists by proof, one hump by a test, parts by themselves, and hints at scars."""

from __future__ import annotations

import numpy as np
import pytest
from fit_cases import KEPT, cases, fitted, text
from hypothesis import given, settings
from hypothesis import strategies as st
from scipy.optimize import nnls

from walzhik import Curve, Space
from walzhik.fit import SHAPES, Fit, Unfittable, design, fit, template
from walzhik.fit_design import Part
from walzhik.fit_scar import Hint, hint
from walzhik.fit_shape import LEAST_COEFFICIENT, Measured, System, falling, shaped, system
from walzhik.limits import UNIT
from walzhik.tucson import Series
from walzhik.view.design import Design as Page
from walzhik.view.propose import proposed

FIRST = 1801


def drawn(rings: int, seed: int) -> np.ndarray[tuple[int], np.dtype[np.int64]]:
    """Widths of any shape: falling, level, rising or humped, with noise, tiny widths and absent rings."""
    random = np.random.default_rng(seed)
    at = np.arange(rings) / max(rings - 1, 1)
    kinds = (1 - 0.9 * at, np.ones(rings), 0.2 + at, 0.1 + at * np.exp(1 - at / 0.2), np.exp(-6 * at))
    curve = 10 ** random.uniform(0.5, 4) * kinds[random.integers(len(kinds))]
    widths = np.clip(curve * random.lognormal(0, random.uniform(0, 0.8), rings), 1, 99_999).astype(np.int64)
    widths[random.random(rings) < random.choice([0, 0.05])] = 0
    return widths


def determined(rings: int, seed: int, shape: str) -> Fit | None:
    """A template's fit, or None where too few rings are present."""
    try:
        return fit(template(rings, FIRST), drawn(rings, seed), FIRST, shape)  # type: ignore[arg-type]
    except Unfittable as error:
        assert "don't determine" in str(error)
        return None


def every_value(fitted: Fit) -> np.ndarray[tuple[int], np.dtype[np.int32]]:
    """The curve at positions between the rings too."""
    first, last = UNIT * FIRST, UNIT * (FIRST + fitted.widths.size - 1)
    return fitted.curve.values(np.unique(np.linspace(first, last, 1_500).astype(np.int64)))[:, 0]


@settings(max_examples=1_000, deadline=None)
@given(st.integers(2, 600), st.integers(0, 2**32 - 1))
def test_a_falling_fit_never_rises_and_stays_above_zero(rings: int, seed: int) -> None:
    fitted = determined(rings, seed, "falling")
    if fitted is not None:
        assert fitted.shapes == ("falling",) and fitted.never_rises
        values = every_value(fitted)
        assert (np.diff(values) <= 0).all() and values[-1] >= UNIT * LEAST_COEFFICIENT


@settings(max_examples=300, deadline=None)
@given(st.integers(2, 600), st.integers(0, 2**32 - 1), st.sampled_from(SHAPES))
def test_every_fit_stays_above_zero(rings: int, seed: int, shape: str) -> None:
    fitted = determined(rings, seed, shape)
    if fitted is not None:
        assert fitted.coefficients.min() >= LEAST_COEFFICIENT and every_value(fitted).min() >= UNIT
        rises = (np.diff(fitted.coefficients) > 0).nonzero()[0]
        if shape in ("auto", "hump") and rises.size:
            assert fitted.shapes == ("hump",) and not fitted.never_rises
            falls = (np.diff(fitted.coefficients) < 0).nonzero()[0]
            assert falls.size == 0 or rises.max() < falls.min()


@settings(max_examples=40, deadline=None)
@given(st.integers(30, 220), st.integers(0, 2**32 - 1))
def test_the_first_fit_is_the_least_squares_falling_list(rings: int, seed: int) -> None:
    """Against nnls on the whole matrix, without the triangle."""
    widths = np.random.default_rng(seed).integers(1, 4_000, rings)
    part = design(template(rings, FIRST), FIRST, rings).parts[0]
    measured = Measured(part, widths - 1.0, np.ones(rings, dtype=bool), rings)
    weights = 1 / np.random.default_rng(seed + 1).uniform(500, 3_000, rings)
    made = system(measured, weights)
    by_triangle = nnls(made.triangle, made.target)[0]
    whole, distance = nnls(part.steps * weights[:, np.newaxis], (widths - 1) * weights)
    assert np.abs(by_triangle - whole).max() < 1e-4
    assert made.left <= distance**2 * (1 + 1e-6)


def test_nearly_dependent_columns_are_factored_another_way() -> None:
    """Columns that differ by a millionth of a millionth: the normal equations can't tell them apart."""
    steps = np.column_stack([np.ones(50), np.ones(50) + 1e-12 * np.arange(50)])
    part = Part(slice(0, 50), slice(0, 2), steps, *np.linalg.qr(steps))
    made = system(Measured(part, np.full(50, 999.0), np.ones(50, dtype=bool), 50), np.ones(50))
    assert isinstance(made, System) and np.isfinite(made.triangle).all() and made.left >= 0


def test_wide_young_rings_do_not_rule() -> None:
    """Deviations count relative to the curve: the same scatter in wide and in narrow rings moves both ends alike."""
    random = np.random.default_rng(3)
    scatter = random.lognormal(0, 0.2, 200)
    ratios = []
    for height in (1, 10):
        truth = np.where(np.arange(200) < 100, 500 * height, 500)
        space = Space([0, 99, 199], [1, 1], [-1])
        fitted = fit(space, np.round(truth * scatter).astype(int), 0, "falling")
        ratios.append(fitted.values()[:100] / (UNIT * 500 * height))
    assert np.abs(ratios[0] / ratios[1] - 1).max() < 0.01
    line = np.linspace(4_000, 400, 200)
    tilted = np.round(line * np.where(np.arange(200) < 20, 1.5, 1)).astype(int)
    ends = {shape: fit(Space([0, 199], [1], []), tilted, 0, shape).coefficients[1] for shape in ("falling", "free")}
    assert abs(ends["falling"] - 400) < abs(ends["free"] - 400) / 2


def test_one_hump_is_found_and_noise_is_none() -> None:
    at = np.arange(150)
    hump = np.round(1_000 + 2_000 * (at / 20) * np.exp(1 - at / 20)).astype(int)
    assert fit(template(150, 0), hump, 0).shapes == ("hump",)
    assert fit(template(150, 0), hump, 0, "falling").shapes == ("falling",)
    random = np.random.default_rng(5)
    shapes = [fit(template(150, 0), random.lognormal(7, 0.25, 150).astype(int), 0).shapes[0] for _ in range(100)]
    assert shapes.count("falling") >= 85


def test_a_hump_that_is_asked_for_rises_once() -> None:
    fitted = fit(template(150, 0), np.linspace(500, 3_000, 150).astype(int), 0, "hump")
    assert fitted.shapes == ("hump",) and (np.diff(fitted.coefficients) >= 0).all()


def test_parts_are_fitted_by_themselves() -> None:
    """A part's coefficients are those of its own space, and each has its shape."""
    at = np.arange(100)
    falls = np.round(3_000 * np.exp(-at / 40) + 300).astype(int)
    hump = np.round(300 + 2_000 * (at / 20) * np.exp(1 - at / 20)).astype(int)
    space = Space([0, 30, 99, 129, 199], [3, 2, 3, 2], [1, -1, 1])
    both = fit(space, np.concatenate([falls, hump]), 0)
    assert both.shapes == ("falling", "hump") and not both.never_rises
    alone = fit(Space([0, 30, 99], [3, 2], [1]), falls, 0)
    assert both.coefficients[: alone.coefficients.size].tolist() == alone.coefficients.tolist()
    assert fit(space, np.concatenate([falls, falls]), 0).never_rises


def test_orders_above_one_are_promised_nothing() -> None:
    widths = np.round(3_000 * np.exp(-np.arange(60) / 20) + 300).astype(int)
    fitted = fit(Space([0, 30, 59], [3, 3], [2]), widths, 0)
    assert fitted.shapes == ("falling",) and not fitted.never_rises


def test_an_unknown_shape_is_told() -> None:
    with pytest.raises(ValueError, match="'round' is none of auto, falling, hump, free"):
        fit(template(20, 0), [1_000] * 20, 0, "round")  # type: ignore[arg-type]


def test_equal_widths_fall_by_nothing() -> None:
    assert fit(template(90, 0), [1_500] * 90, 0).coefficients.tolist() == [1_500] * 5
    assert fit(template(90, 0), [1] * 90, 0).coefficients.tolist() == [1] * 5


def test_steps_of_one_sign_give_lists_that_do_not_turn() -> None:
    """Also where the steps are of very different sizes."""
    part = design(template(300, 0), 0, 300).parts[0]
    for seed in range(50):
        widths = np.clip(np.random.default_rng(seed).lognormal(4, 3, 300), 1, 99_999).astype(np.int32)
        assert (np.diff(shaped(part, widths, "falling")) <= 0).all()


def test_series_that_lie_alike_share_a_design() -> None:
    first = design(template(150, 1700), 1700, 150)
    assert design(template(150, 900), 900, 150) is first


def test_falling_uses_the_rounds_of_weights_that_are_stated() -> None:
    widths = drawn(200, 11)
    part = design(template(200, 0), 0, 200).parts[0]
    measured = Measured(part, np.where(widths != 0, widths - 1.0, 0), widths != 0, int((widths != 0).sum()))
    weights = np.where(widths != 0, 1.0, 0.0)
    for _ in range(3):
        steps = nnls(part.steps * weights[:, np.newaxis], measured.above * weights)[0]
        weights = np.where(widths != 0, 1 / (part.steps @ steps + 1), 0)
    assert np.abs(falling(measured).steps - steps).max() < 1e-3


# Scars.


def released(seed: int) -> np.ndarray[tuple[int], np.dtype[np.int64]]:
    """A falling core of 160 rings that doubles after ring 90 of them."""
    at = np.arange(160)
    curve = (600 + 1_500 * np.exp(-at / 30)) * np.where(at >= 90, 2.2, 1)
    return np.round(curve * np.random.default_rng(seed).lognormal(0, 0.2, 160)).astype(np.int64)


@pytest.mark.parametrize("seed", range(10))
def test_a_release_is_hinted_at_with_its_year(seed: int) -> None:
    found = hint(fit(template(160, FIRST), released(seed), FIRST))
    assert found is not None and abs(found.ring - (FIRST + 89)) <= 2 and found.rings >= 15
    assert f"--scar {found.ring} sets it" in found.words()


def test_a_scar_makes_the_curve_follow_a_release() -> None:
    widths = released(1)
    squares = [fit(template(160, FIRST, scars), widths, FIRST).closeness().mean_square for scars in ([], [FIRST + 89])]
    assert squares[1] < squares[0] / 2


def test_falling_cores_are_hardly_ever_hinted_at() -> None:
    random = np.random.default_rng(1)
    at = np.arange(160)
    cores = [((700 + 2_000 * np.exp(-at / 40)) * random.lognormal(0, 0.25, 160)).astype(int) for _ in range(100)]
    hints = [hint(fit(template(160, 0), core, 0)) for core in cores]
    assert sum(found is not None for found in hints) <= 3


def test_short_and_exact_series_are_not_hinted_at() -> None:
    assert hint(fit(template(12, 0), [1_000] * 12, 0)) is None
    assert hint(fit(template(80, 0), [1_000] * 80, 0)) is None


def test_a_hint_is_a_sentence() -> None:
    assert Hint(1850, 1, False).words().startswith("Some 1 ring together lie below the curve")


def test_the_curve_of_a_fit_is_the_engine_s() -> None:
    fitted = fit(template(160, FIRST), released(2), FIRST)
    positions = UNIT * np.arange(FIRST, FIRST + 160)
    assert fitted.values().tolist() == Curve(fitted.curve.space, fitted.coefficients).values(positions)[:, 0].tolist()


def test_the_fits_that_r_is_held_to_are_these() -> None:
    """R's own tests hold its fits to the same file; python/tests/fit_cases.py makes it again."""
    assert text() == KEPT.read_text(encoding="ascii") and text().count("\n") >= 100


def test_a_half_is_rounded_up_whatever_the_last_digits_are() -> None:
    """The mean of these widths is 1643.5, and the falling curve is level: the solvers' last digits fall to either side."""
    widths = [1318, 1610, 1545, 2567, 1633, 1472, 997, 1706, 2193, 1218, 1347, 865, 1540, 2255, 2373, 1657]
    assert fit(template(len(widths)), widths, 0, "falling").coefficients.tolist() == [1644, 1644, 1644]


def test_the_screen_proposes_the_same_fits() -> None:
    """The fits that Python and R are held to, by the page's buttons: over a template, and over the template's lists."""
    seen = 0
    for shape, first, widths, scars in cases():
        made = fitted(shape, first, widths, scars)
        if made is None or shape != "auto":
            continue
        series, lists = {"A": Series("A", first, widths)}, made.curve.space.lists()
        pairs = [(1_000, 1_000)] * made.curve.space.n
        page = Page(list(lists.breaks), list(lists.degrees), list(lists.orders), pairs, True, {"ring": "A"})
        answer = proposed(page, series, is_template=not scars)
        assert [early for early, _ in answer["design"]["pairs"]] == made.coefficients.tolist()
        assert ("By proof this curve never rises" in answer["words"]) == made.never_rises
        seen += 1
    assert seen >= 50
