"""Stretches, joins and scars, the curve that is carried over, fits, and beams."""

from __future__ import annotations

import numpy as np

from walzhik import Curve, Space, tucson
from walzhik.fit import SHAPES, fit
from walzhik.promises import shape_lines, wood_lines

from .curves import agrees, curve_of
from .page import Page
from .stage import BEAM, OAK, ROOT, on

RINGS = 256 * np.arange(1703, 1803)


def test_structure(page: Page) -> None:
    page.choose("order-2", "-1")
    page.until(lambda: page.count("#picture line.scar") == 4, "the scar is not drawn in both panels")
    page.until(lambda: len(page.lists().pairs) == 10, "the scar did not bring a coefficient")
    agrees(page)
    page.choose("order-2", "0")
    page.until(lambda: len(page.lists().pairs) == 9, "the scar is not taken away")
    page.click('[aria-label="Split stretch 1"]')
    page.until(lambda: len(page.lists().breaks) == 6 and len(page.lists().pairs) == 10, "the stretch is not split")
    agrees(page)
    page.choose("degree-1", "3")
    page.until(lambda: len(page.lists().pairs) == 11, "the degree did not bring a coefficient")
    agrees(page)
    page.click('[aria-label="Remove join 1"]')
    page.until(lambda: len(page.lists().breaks) == 5, "the join is not removed")
    agrees(page)
    page.press(*["undo"] * 5)
    page.until(lambda: len(page.lists().pairs) == 9 and page.lists().orders == [1, -1, 0], "five steps are not undone")
    agrees(page)
    page.until(lambda: "n = 9 " in page.text("promises"), "n is not told")
    assert "never refused" in page.text("promises")


def test_the_curve_is_carried_over_also_where_n_is_the_same(page: Page) -> None:
    before = curve_of(page)
    page.choose("order-0", "2")
    page.until(page.is_stale, "the order is not refused")
    page.choose("degree-1", "3")
    page.until(lambda: not page.is_stale(), "the degree does not allow the order")
    agrees(page)
    assert len(page.lists().pairs) == 9 and page.lists().pairs != before.coefficients.tolist()
    kept = Curve(curve_of(page).space, before.coefficients)
    away, thrown = (np.abs(each.values(RINGS) - before.values(RINGS)).max() for each in (curve_of(page), kept))
    assert 3 * away < thrown, "the curve is not carried over"
    page.press("undo", "undo")
    page.until(lambda: page.lists().pairs == [tuple(pair) for pair in before.coefficients.tolist()], "it is not undone")
    page.press("redo", "redo")
    agrees(page)


def test_fit(page: Page) -> None:
    page.press("fit")
    page.until(lambda: "not proved" in page.text("status"), "the fit says nothing")
    lists = page.lists()
    space = Space(lists.breaks, lists.degrees, lists.orders)
    series = {each.name: each for each in tucson.read(ROOT / OAK)}
    sides = [fit(space, series[name].widths, 1703).coefficients.tolist() for name in ("ROOF04E", "ROOF04L")]
    page.until(lambda: page.lists().pairs == list(zip(*sides)), "the coefficients are not those of the fit")
    agrees(page)


def test_the_shape_of_a_fit_is_a_choice(page: Page) -> None:
    offered = page.script("return [...document.querySelectorAll('#shape option')].map((each) => each.value)")
    assert offered == ["auto", "falling", "hump", "free"]
    widths = {each.name: each.widths for each in tucson.read(ROOT / OAK)}
    space = curve_of(page).space
    for shape in SHAPES:
        page.choose("shape", shape)
        page.press("fit")
        sides = [fit(space, widths[name], 1703, shape).coefficients.tolist() for name in ("ROOF04E", "ROOF04L")]
        page.until(lambda: page.lists().pairs == list(zip(*sides)), f"the coefficients are not those of {shape}")
        agrees(page)
    page.choose("shape", "falling")
    page.press("fit")
    page.until(lambda: "By proof" in page.text("status"), "what is proved of the shape is not said")


def test_a_template_leaves_the_other_wood_its_curve(page: Page) -> None:
    late = curve_of(page).values(RINGS)[:, 1]
    page.choose("series-latewood", "none")
    page.press("template")
    page.until(lambda: "not proved" in page.text("status"), "the fit says nothing")
    page.until(lambda: page.lists().breaks != [1703, 1715, 1748, 1776, 1802], "no template is there")
    agrees(page)
    made = curve_of(page).values(RINGS)
    assert (
        np.abs(made[:, 1] - late).max() < np.abs(made[:, 0] - late).max() / 3
    ), "the latewood has the earlywood's curve"


@on(["--curve", BEAM])
def test_beam(page: Page) -> None:
    agrees(page)
    assert page.count("#picture line.scar") == 4 and len(page.lists().degrees) == 31
    page.choose("degree-0", "5")
    page.until(lambda: len(page.lists().pairs) == 54, "the degree did not bring four coefficients")
    curve = curve_of(page)
    page.until(
        lambda: [each[0] for each in page.path("latewood")[1:257]] == ["L"] * 256, "degree 5 is not drawn by values"
    )
    for _, (ring, height) in page.path("latewood")[1:257]:
        assert curve.values([int(256 * ring)])[0, 1] == 256 * height


def closeness_words(page: Page, side: int) -> str:
    """How close the curve of the page's lists is to a series, from the engine's values."""
    name = ("ROOF04E", "ROOF04L")[side]
    widths = {each.name: np.asarray(each.widths) for each in tucson.read(ROOT / OAK)}[name]
    left = (widths - curve_of(page).values(RINGS)[:, side] / 256)[widths != 0] / 1000
    about = widths[widths != 0] / 1000 - (widths[widths != 0] / 1000).mean()
    share = 1 - (left @ left) / (about @ about)
    return f"{name}: root mean square {np.sqrt((left**2).mean()):.4f} mm, {100 * share:.1f} % explained."


def test_closeness_follows_the_hand(page: Page) -> None:
    page.until(lambda: closeness_words(page, 0) in page.text("closeness"), "the closeness is not the engine's")
    assert closeness_words(page, 1) in page.text("closeness")
    before = page.text("closeness")
    page.hold("coefficient-3-earlywood", 0, -50)
    page.until(lambda: page.text("closeness") != before, "the closeness does not follow the hand")
    page.until(lambda: closeness_words(page, 0) in page.text("closeness"), "it is not that of the curve in the hand")
    page.press_key("Escape")
    page.let_go()
    page.until(lambda: page.text("closeness") == before, "it does not come back")
    page.type("break-4", "1795")
    [widths] = [np.asarray(each.widths) for each in tucson.read(ROOT / OAK) if each.name == "ROOF04E"]
    of = f"over {np.count_nonzero(widths[:93])} of {np.count_nonzero(widths)} rings"
    page.until(lambda: of in page.text("closeness"), "it is not said of how many rings it is")


def test_the_former_curve_is_a_ghost(page: Page) -> None:
    before = page.path("earlywood")
    assert page.count("path.ghost") == 0
    page.key("coefficient-3-earlywood", "ArrowUp", shift=True)
    page.until(lambda: page.path("earlywood") != before, "the curve did not change")
    assert page.path("earlywood", "ghost") == before, "the ghost is not the former curve"
    page.click("#ghost")
    assert page.script("return getComputedStyle(document.querySelector('path.ghost')).display") == "none"


def test_what_can_be_counted_on_follows_the_sheet(page: Page) -> None:
    """The panel has the lines of `explain`, of the sheet as it is now."""
    follows(page)
    page.choose("order-2", "-1")
    page.until(lambda: len(page.lists().pairs) == 10, "the scar did not bring a coefficient")
    follows(page)
    before = page.lists().pairs[0]
    page.key("coefficient-0-earlywood", "ArrowUp")
    page.until(lambda: page.lists().pairs[0] != before, "the coefficient is not changed")
    follows(page)


def follows(page: Page) -> None:
    """Each line stands in the panel."""
    lines = [*shape_lines(page.lists()), *wood_lines(page.lists())]
    page.until(lambda: all(line in page.text("promises") for line in lines), f"the panel does not say all of {lines}")
