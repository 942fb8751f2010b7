"""Names, tables, focus, contrast, and the colours that somebody prefers."""

from __future__ import annotations

from selenium.webdriver import Keys

from .curves import agrees
from .page import Page
from .stage import OAK, crowd, on

NAMELESS = """
    return [...document.querySelectorAll('input, select, button, [role=slider], table, ul')].filter((each) =>
        !(each.getAttribute('aria-label') || each.getAttribute('aria-labelledby') || each.labels?.length
          || each.closest('[aria-labelledby]') || each.textContent.trim())).map((each) => each.outerHTML)"""
OTHERWISE_NAMED = """
    return [...document.querySelectorAll('label')].filter((each) => each.control?.hasAttribute('aria-label'))
        .concat([...document.querySelectorAll('button[aria-label]')].filter(
            (each) => !each.getAttribute('aria-label').startsWith(each.textContent)))
        .map((each) => each.outerHTML)"""
LEAST_CONTRAST = 3
TEXT_CONTRAST = 4.5


def light(colour: tuple[float, ...]) -> float:
    """The relative luminance of a colour, as WCAG defines it."""
    shares = [each / 255 for each in colour]
    linear = [each / 12.92 if each <= 0.04045 else ((each + 0.055) / 1.055) ** 2.4 for each in shares]
    return 0.2126 * linear[0] + 0.7152 * linear[1] + 0.0722 * linear[2]


def contrast(one: tuple[float, ...], other: tuple[float, ...]) -> float:
    high, low = sorted((light(one), light(other)), reverse=True)
    return (high + 0.05) / (low + 0.05)


def check_contrast(page: Page) -> None:
    """The focus ring, the curves, a stale curve and all words against their ground."""
    ground, paper = page.colour(":root", "backgroundColor"), page.colour("section", "backgroundColor")
    page.focus("Split stretch 1")
    page.keys(Keys.TAB)
    assert contrast(page.colour(":focus", "outlineColor"), paper) >= LEAST_CONTRAST, "the focus ring is pale"
    assert contrast(page.colour(":focus", "outlineColor"), ground) >= LEAST_CONTRAST
    for selector in ("path.curve.earlywood", "path.curve.latewood", "line.scar"):
        assert contrast(page.colour(selector, "stroke"), paper) >= LEAST_CONTRAST, selector
    page.keys(Keys.SHIFT, Keys.TAB)
    page.focus_handle("coefficient-3-earlywood")
    page.keys(Keys.ARROW_RIGHT)
    assert contrast(page.colour(".handle:focus .touch", "stroke"), paper) >= LEAST_CONTRAST, "the handle's ring is pale"
    page.choose("order-0", "2")
    page.until(page.is_stale, "the order is not refused")
    assert contrast(page.colour("path.curve.earlywood", "stroke"), paper) >= LEAST_CONTRAST, "the stale curve is pale"
    words = page.colour("p.refusal-words", "color"), page.colour("p.refusal-words", "backgroundColor")
    assert contrast(*words) >= TEXT_CONTRAST
    assert contrast(page.colour("label.field > span", "color"), paper) >= TEXT_CONTRAST
    assert contrast(page.colour("path.ghost, path.curve", "stroke"), paper) >= LEAST_CONTRAST


def test_contrast(page: Page) -> None:
    check_contrast(page)


def test_dark_is_dark_and_has_contrast(page: Page) -> None:
    page.media(prefers_color_scheme="dark")
    page.until(lambda: light(page.colour("section", "backgroundColor")) < 0.1, "the page is not dark")
    check_contrast(page)
    page.driver.execute_cdp_cmd("Emulation.setEmulatedMedia", {"media": "print", "features": []})
    assert light(page.colour("section", "backgroundColor")) > 0.9, "the print is dark"
    page.driver.execute_cdp_cmd("Emulation.setEmulatedMedia", {"media": "", "features": []})


def test_forced_colours(page: Page) -> None:
    page.media(forced_colors="active")
    page.until(lambda: page.script("return matchMedia('(forced-colors: active)').matches"), "no forced colours")
    paper = page.colour("section", "backgroundColor")
    for selector in ("path.curve.earlywood", "path.curve.latewood"):
        assert contrast(page.colour(selector, "stroke"), paper) >= LEAST_CONTRAST, selector
    page.focus_handle("coefficient-3-earlywood")
    page.keys(Keys.ARROW_RIGHT)
    assert contrast(page.colour(".handle:focus .touch", "stroke"), paper) >= LEAST_CONTRAST
    page.media()


def test_every_control_is_named_as_its_label(page: Page) -> None:
    assert page.script(NAMELESS) == [], "a control or a table has no name"
    assert page.script(OTHERWISE_NAMED) == [], "a name differs from the label that is seen"
    tables = page.script(
        "return [...document.querySelectorAll('table')].map((each) => "
        "document.getElementById(each.getAttribute('aria-labelledby')).textContent)"
    )
    assert tables == ["Stretches and joins", "Coefficients thousandths of a millimetre"]


def test_the_focus_is_never_lost(page: Page) -> None:
    page.focus("Remove join 2")
    page.enter()
    page.until(lambda: len(page.lists().orders) == 2, "the join is not removed")
    assert not page.focus_is_lost(), "the focus falls to the page when its button goes"
    page.script("document.getElementById('undo').focus()")
    page.enter()
    page.until(lambda: not page.is_usable("undo"), "it is not undone")
    assert page.focused() == "Undo", "the focus falls to the page when a button can't be used"
    page.enter()
    assert page.focused() == "Undo" and len(page.lists().orders) == 3
    page.focus_handle("coefficient-8-latewood")
    page.script("document.getElementById('redo').click()")
    page.until(lambda: len(page.lists().pairs) == 8, "it is not done again")
    assert page.focused().startswith("Coefficient 7, latewood"), "the focus is lost with its handle"
    page.script("document.getElementById('whole-earlywood').focus()")
    page.enter()
    page.until(lambda: page.count("path.curve") == 1, "there is no curve of the whole ring")
    assert not page.focus_is_lost()


@on(crowd)
def test_the_focus_stays_from_series_to_series(page: Page) -> None:
    for place in (2, 3, 4, 5):
        page.script("document.getElementById('next').focus()")
        page.enter()
        page.until(lambda: f"{place} of 5" in page.text("place"), "the next series is not there")
        assert page.focused() == "Next series"


def test_shift_tab_returns_where_it_came_from(page: Page) -> None:
    page.focus_handle("coefficient-0-earlywood")
    for _ in range(3):
        page.keys(Keys.ARROW_RIGHT)
    assert page.focused().startswith("Coefficient 3, earlywood")
    page.keys(Keys.TAB)
    assert page.focused().startswith("Coefficient 0, latewood")
    page.keys(Keys.SHIFT, Keys.TAB)
    assert page.focused().startswith("Coefficient 3, earlywood"), "Shift+Tab goes elsewhere"
    page.keys(Keys.SHIFT, Keys.TAB)
    assert page.focused().startswith("Breakpoint 0")
    page.keys(Keys.TAB)
    assert page.focused().startswith("Coefficient 3, earlywood")


@on([OAK])
def test_all_of_it_by_the_keyboard(page: Page) -> None:
    page.script("document.activeElement.blur()")
    seen: list[str] = []
    for _ in range(60):
        page.keys(Keys.TAB)
        seen.append(page.focused())
    for name in ("Undo", "Zoom in", "Sheet", "Next series", "Split stretch 0", "Fit a template", "All designs, ZIP"):
        assert name in seen, f"{name} is not reached by Tab"
    assert any(each.startswith("Breakpoint 0") for each in seen) and any(
        each.startswith("Coefficient 0, whole") for each in seen
    )
    agrees(page, "ring")
