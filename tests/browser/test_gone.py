"""A server that is gone, and work that is not yet saved."""

from __future__ import annotations

from walzhik import sheet

from .curves import agrees
from .page import Page
from .stage import ROOF_PAGE, served

UNLOADING = "return dispatchEvent(new Event('beforeunload', { cancelable: true }))"


def test_unsaved_work_is_asked_for(page: Page) -> None:
    assert page.script(UNLOADING), "nothing was changed, and the page asks"
    page.type("coefficient-2-latewood", "777")
    agrees(page)
    assert not page.script(UNLOADING), "the page lets unsaved work go"
    page.saved("sheet", "roof.sheet")
    page.until(lambda: page.script(UNLOADING), "the work is saved, and the page asks")
    page.press("undo")
    agrees(page)
    assert not page.script(UNLOADING)


def gone(page: Page) -> None:
    """Wait until the page says that nobody answers."""
    page.until(lambda: "./walzhik view still running" in page.text("status"), "that nobody answers is not told")


def test_a_server_that_is_gone_loses_nothing(page: Page) -> None:
    with served(*ROOF_PAGE) as (address, process):
        page.go(address)
        page.type("coefficient-2-latewood", "777")
        agrees(page)
        process.terminate()
        process.wait()
        page.key("break-1", "ArrowRight")
        gone(page)
    port = address.split(":")[2].split("/")[0]
    assert (
        page.is_stale() and page.stroke("earlywood") == "rgb(117, 117, 117)" and f"--port {port}" in page.text("status")
    )
    made = page.saved("sheet", "kept.sheet")
    assert sheet.read(made).pairs[2] == (2250, 777), "the last good sheet can't be saved"
    with served(*ROOF_PAGE, "--port", port) as (again, _):
        page.go(again)
        page.until(lambda: page.value("coefficient-2-latewood") == 777, "the work is lost with the server")
        page.until(lambda: page.value("break-1") == 1716, "the last change is lost with the server")
        agrees(page)
        page.press("undo", "undo")
        page.until(lambda: page.value("coefficient-2-latewood") == 760, "what was given is not behind it")
        agrees(page)


setattr(test_a_server_that_is_gone_loses_nothing, "complaints", "ERR_CONNECTION_REFUSED")


def test_a_kept_copy_that_is_refused_comes_back_with_its_good_curve(page: Page) -> None:
    with served(*ROOF_PAGE) as (address, process):
        page.go(address)
        page.type("coefficient-2-latewood", "777")
        agrees(page)
        page.choose("order-0", "2")
        page.until(page.is_stale, "the order is not refused")
        process.terminate()
        process.wait()
        page.choose("order-2", "-1")
        gone(page)
    with served(*ROOF_PAGE, "--port", address.split(":")[2].split("/")[0]) as (again, _):
        page.go(again)
        page.until(lambda: page.is_invalid("order-0"), "the refusal is not there again")
        assert page.is_stale() and page.lists().orders == [2, -1, -1]
        page.press("undo")
        page.until(lambda: not page.is_stale(), "the good curve is not behind it")
        agrees(page)
        assert page.value("coefficient-2-latewood") == 777


setattr(test_a_kept_copy_that_is_refused_comes_back_with_its_good_curve, "complaints", "ERR_CONNECTION_REFUSED")
