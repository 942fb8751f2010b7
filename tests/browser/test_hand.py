"""Hands and keys on the handles: the mouse, a finger, arrows, what is taken back in the middle of a drag, and where a
drag ends.
"""

from __future__ import annotations

from .curves import agrees
from .page import CTRL, Page
from .stage import OAK, on

FINGER_STEPS = 8
PIXELS = 40
BEYOND = 200  # pixels above the picture


def test_dragging(page: Page) -> None:
    agrees(page)
    page.drag("break-1", 60, 0)
    page.until(lambda: page.value("break-1") > 1715, "the breakpoint did not follow the hand")
    agrees(page)
    before = page.value("coefficient-3-earlywood"), page.value("coefficient-3-latewood")
    page.drag("coefficient-3-earlywood", 0, -70)
    page.until(lambda: page.value("coefficient-3-earlywood") > before[0], "the coefficient did not follow the hand")
    assert page.value("coefficient-3-latewood") == before[1]
    agrees(page)
    page.press("undo", "undo")
    page.until(
        lambda: (page.value("break-1"), page.value("coefficient-3-earlywood")) == (1715, 1500),
        "two steps are not undone",
    )
    agrees(page)


def test_keys(page: Page) -> None:
    page.key("coefficient-3-latewood", "ArrowUp")
    page.until(lambda: page.value("coefficient-3-latewood") == 570, "the arrow up did not add 10 thousandths")
    page.key("coefficient-3-latewood", "ArrowDown", shift=True)
    page.until(
        lambda: page.value("coefficient-3-latewood") == 470, "shift and the arrow down did not take 100 thousandths"
    )
    page.key("break-3", "ArrowRight")
    page.key("break-3", "ArrowLeft", shift=True)
    page.until(lambda: page.value("break-3") == 1767, "the arrows did not move the breakpoint by 1 and by 10 rings")
    agrees(page)
    page.key("coefficient-3-latewood", "ArrowRight")
    assert page.focused().startswith("Coefficient 4, latewood"), "the arrow right did not go to the neighbour"
    for _ in range(4):
        page.shortcut("z")
    page.until(
        lambda: (page.value("coefficient-3-latewood"), page.value("break-3")) == (560, 1776), "Ctrl+Z did not undo"
    )
    page.shortcut("y")
    page.until(lambda: page.value("coefficient-3-latewood") == 570, "Ctrl+Y did not do it again")
    page.shortcut("z")
    agrees(page)


def finger(page: Page, control: str, down: int) -> tuple[float, float]:
    """A finger on a handle, which it moves down in steps; where it is then."""
    x, y = page.spot(control)
    page.touch("touchStart", (x, y))
    for step in range(1, FINGER_STEPS + 1):
        page.touch("touchMove", (x, y + down * step / FINGER_STEPS))
    return x, y + down


def test_touch_moves_a_coefficient_as_a_mouse_does(page: Page) -> None:
    page.hold("coefficient-3-earlywood", 0, PIXELS)
    page.until(lambda: page.value("coefficient-3-earlywood") < 1500, "the mouse did not move it")
    wanted = page.value("coefficient-3-earlywood")
    page.press_key("Escape")
    page.let_go()
    page.until(lambda: page.value("coefficient-3-earlywood") == 1500, "Escape did not put it back")
    finger(page, "coefficient-3-earlywood", PIXELS)
    page.touch("touchEnd")
    page.until(lambda: abs(page.value("coefficient-3-earlywood") - wanted) < 20, "a finger moved it elsewhere")
    agrees(page)
    page.press("undo")
    page.until(lambda: page.value("coefficient-3-earlywood") == 1500, "a finger's drag is not one step")
    assert not page.is_usable("undo")


def test_touch_that_is_cancelled_puts_back(page: Page) -> None:
    finger(page, "coefficient-3-earlywood", PIXELS)
    page.until(lambda: page.value("coefficient-3-earlywood") < 1500, "the finger did not move it")
    page.touch("touchCancel")
    page.until(lambda: page.value("coefficient-3-earlywood") == 1500, "what was cancelled is kept")
    agrees(page)
    assert not page.is_usable("undo"), "what was cancelled is a step"
    finger(page, "break-1", 0)
    page.touch("touchCancel")
    assert page.value("break-1") == 1715


def test_touch_beside_the_handles_scrolls_the_page(page: Page) -> None:
    page.resize(390, 844)
    x, y = page.ring_spot(1790, 0.2)
    page.touch("touchStart", (x, y))
    for step in range(1, FINGER_STEPS + 1):
        page.touch("touchMove", (x, y - 15 * step))
    page.touch("touchEnd")
    page.until(lambda: page.script("return scrollY") > 0, "the page can't be scrolled by the picture")
    assert page.lists().breaks == [1703, 1715, 1748, 1776, 1802]


def test_escape_ends_a_drag(page: Page) -> None:
    page.hold("break-1", 60, 0)
    page.until(lambda: page.value("break-1") > 1715, "the breakpoint did not follow the hand")
    page.press_key("Escape")
    page.until(lambda: page.value("break-1") == 1715, "Escape did not put the breakpoint back")
    page.nudge(20, 0, 3)
    page.let_go()
    agrees(page)
    assert page.value("break-1") == 1715 and not page.is_usable("undo"), "the hand goes on after Escape"


def test_undo_in_the_middle_of_a_drag_gives_the_drag_up(page: Page) -> None:
    page.key("break-1", "ArrowRight")
    page.until(lambda: page.value("break-1") == 1716, "the breakpoint did not move")
    page.hold("coefficient-3-earlywood", 0, -PIXELS)
    page.until(lambda: page.value("coefficient-3-earlywood") > 1500, "the coefficient did not follow the hand")
    page.press_key("z", CTRL)
    page.until(lambda: page.value("coefficient-3-earlywood") == 1500, "the drag is not given up")
    assert page.value("break-1") == 1716, "more than the drag is undone"
    page.nudge(0, -10, 3)
    page.let_go()
    page.shortcut("z")
    page.until(lambda: page.value("break-1") == 1715, "the step before the drag is lost")
    page.shortcut("y")
    page.until(lambda: page.value("break-1") == 1716, "it can't be done again")
    assert page.value("coefficient-3-earlywood") == 1500
    agrees(page)


def top(page: Page) -> float:
    return float(
        page.script("return Math.max(...[...document.querySelectorAll('.number.up')].map((each) => each.textContent))")
    )


def test_the_scale_follows_a_drag_at_its_edge(page: Page) -> None:
    highest = page.script("return document.getElementById('picture').getBoundingClientRect().top")
    x, y = page.spot("coefficient-1-earlywood")
    page.hold("coefficient-1-earlywood", 0, int(highest - y) + 4)
    page.until(lambda: page.value("coefficient-1-earlywood") > 3000, "the coefficient is not at the edge")
    before = page.value("coefficient-1-earlywood")
    for step in range(6):
        page.nudge(1 if step % 2 else -1, 0, 4)
    page.until(lambda: page.value("coefficient-1-earlywood") > 1.3 * before, "the scale did not follow the hand")
    assert page.spot("coefficient-1-earlywood")[1] > highest, "the handle has left the picture"
    assert page.value("coefficient-1-earlywood") < 20 * before, "the coefficient is flung"
    page.let_go()
    agrees(page)
    last = page.spot("break-4")[0]
    page.hold("break-4", 60, 0)
    for step in range(4):
        page.nudge(0, 1 if step % 2 else -1, 3)
    page.until(lambda: page.value("break-4") > 1806, "the axis of years did not follow the hand")
    assert page.spot("break-4")[0] <= last + 2, "the handle has left the picture"
    page.let_go()
    agrees(page)


def test_breakpoints_stop_at_their_neighbours(page: Page) -> None:
    page.drag("break-1", 500, 0)
    page.until(lambda: page.value("break-1") == 1747, "the breakpoint did not stop at its right neighbour")
    agrees(page)
    page.drag("break-1", 5 - int(page.spot("break-1")[0]), 0)
    page.until(lambda: page.value("break-1") == 1704, "the breakpoint did not stop at its left neighbour")
    agrees(page)
    page.key("break-1", "ArrowLeft", shift=True)
    page.key("break-1", "ArrowRight")
    page.until(lambda: page.value("break-1") == 1705, "a key brought it past its neighbour")
    assert not page.is_stale()
    limits = page.script(
        "const at = document.querySelector('[data-control=break-1]');"
        "return ['min', 'max'].map((each) => at.getAttribute(`aria-value${each}`))"
    )
    assert limits == ["1704", "1747"]


def test_overlapping_handles_are_both_reached(page: Page) -> None:
    page.type("coefficient-5-earlywood", "1150")
    agrees(page)
    (left, high), (right, other) = page.spot("coefficient-4-earlywood"), page.spot("coefficient-5-earlywood")
    assert abs(high - other) < 1 and right - left > 10, "two handles lie over each other"
    page.drag("coefficient-4-earlywood", 0, -PIXELS)
    page.until(lambda: page.value("coefficient-4-earlywood") > 1150, "the left one can't be reached")
    assert page.value("coefficient-5-earlywood") == 1150
    page.press("undo")
    page.until(lambda: page.value("coefficient-4-earlywood") == 1150, "it is not undone")
    agrees(page)
    page.drag("coefficient-5-earlywood", 0, -PIXELS)
    page.until(lambda: page.value("coefficient-5-earlywood") > 1150, "the right one can't be reached")
    assert page.value("coefficient-4-earlywood") == 1150
    page.type("coefficient-3-latewood", "1500")
    page.until(
        lambda: page.spot("coefficient-3-latewood")[0] - page.spot("coefficient-3-earlywood")[0] > 10, "both woods"
    )
    page.drag("coefficient-3-latewood", 0, -PIXELS)
    page.until(lambda: page.value("coefficient-3-latewood") > 1500, "the latewood's can't be reached")
    assert page.value("coefficient-3-earlywood") == 1500


def test_a_double_click_splits_at_its_ring(page: Page) -> None:
    page.double_click(*page.ring_spot(1730, 0.2))
    page.until(lambda: page.lists().breaks == [1703, 1715, 1730, 1748, 1776, 1802], "the stretch is not split there")
    agrees(page)
    page.double_click(*page.ring_spot(1730, 0.2))
    page.key("break-2", "Delete")
    page.until(lambda: page.lists().breaks == [1703, 1715, 1748, 1776, 1802], "Delete did not remove the join")
    agrees(page)
    assert not page.focus_is_lost() and page.focused().startswith("Breakpoint")
    page.key("break-0", "Delete")
    page.key("break-4", "Delete")
    page.key("coefficient-0-earlywood", "Delete")
    agrees(page)
    assert page.lists().breaks == [1703, 1715, 1748, 1776, 1802], "an end or a coefficient is removed"
    page.press("undo", "undo")
    page.until(lambda: not page.is_usable("undo"), "they are not two steps")


@on([OAK])
def test_a_click_alone_changes_nothing(page: Page) -> None:
    before = page.lists()
    page.drag("coefficient-2-ring", 0, 0)
    agrees(page, "ring")
    assert page.lists() == before and not page.is_usable("undo")
