"""The page in windows of several sizes, what it loads, and beams in its tables."""

from __future__ import annotations

from .page import Page
from .stage import BEAM, on

NO_SCROLL = "return document.documentElement.scrollWidth <= innerWidth"
IN_BOX = "const at = document.getElementById(arguments[0]); return at.scrollWidth <= at.clientWidth"
DESK, SMALL, PHONE, DOUBLE = (1440, 900), (1024, 768), (390, 844), (640, 900)


def test_page_itself(page: Page) -> None:
    asked = page.script("return performance.getEntriesByType('resource').map((each) => each.name)")
    assert asked and all(each.startswith(page.address) for each in asked), "something came from elsewhere"
    page.resize(*DOUBLE)
    page.until(lambda: page.script(NO_SCROLL), "at 200 % it is too wide")
    assert page.fits("main button", "main select")


def test_save_buttons_are_in_sight_at_a_desk(page: Page) -> None:
    page.window(*DESK)
    page.until(lambda: page.script("return innerWidth") == DESK[0], "the window has not this size")
    lowest = page.script(
        "return Math.max(...[...document.querySelectorAll('[id^=save-]')].map((each) => each.getBoundingClientRect().bottom))"
    )
    assert 0 < lowest < DESK[1] and page.fits("[id^=save-]"), "a save button is out of sight"
    assert page.script("return document.getElementById('picture').getBoundingClientRect().bottom") < DESK[1]


@on(["--curve", BEAM])
def test_no_sideways_scrolling_in_long_tables(page: Page) -> None:
    for size in (DESK, SMALL):
        page.window(*size)
        assert page.script(IN_BOX, "lists") and page.script(IN_BOX, "coefficients") and page.script(NO_SCROLL)
        outside = page.script(
            "const right = document.getElementById('lists').getBoundingClientRect().right;"
            "return [...document.querySelectorAll('#lists button')].filter((each) => each.getBoundingClientRect().right > right)"
        )
        assert not outside, "a button is cut"


@on(["--curve", BEAM])
def test_a_phone_shows_whole_buttons(page: Page) -> None:
    page.window(*PHONE)
    page.until(lambda: page.script(NO_SCROLL), "the page is wider than a phone")
    assert page.fits("#stretches button", "#stretches select", "#stretches input", "main button", "#rows input")
    cut = page.script(
        "return [...document.querySelectorAll('#stretches button')].filter((each) => each.scrollWidth > each.clientWidth)"
    )
    assert not cut, "Split or Remove is cut"


def test_nothing_moves_while_a_hand_holds(page: Page) -> None:
    top = "return document.getElementById('picture').getBoundingClientRect().top"
    before = page.script(top)
    page.hold("break-4", -100, 0)
    page.until(lambda: "ring without an index" in page.text("legend"), "no ring is without an index")
    assert page.script(top) == before, "the picture has moved under the hand"
    page.press_key("Escape")
    page.let_go()
