"""The manual's pictures of the screen, taken by the test's own browser: at a desk, on a small screen and on a phone,
dark, at 200 %, in print, with a refusal, zoomed, with the other series of a file, and a beam with scars.
"""

from __future__ import annotations

import base64
import subprocess
from collections.abc import Callable
from contextlib import AbstractContextManager
from pathlib import Path

from PIL import Image
from selenium import webdriver

from .page import Page
from .stage import BEAM, OAK, ROOF_PAGE

Serving = Callable[..., AbstractContextManager[str]]
DESK, SMALL, PHONE, DOUBLE = (1440, 900), (1024, 768), (390, 844), (720, 1950)
PRINT_DOTS = 75  # an inch
COLOURS = 128  # enough for the page, and a third of the bytes


def kept_small(path: Path) -> None:
    """A picture with few colours, in fewer bytes."""
    Image.open(path).convert("RGB").quantize(COLOURS).save(path, optimize=True)


def shot(page: Page, size: tuple[int, int], path: Path) -> None:
    """A picture of the page in a window of a size."""
    page.window(*size)
    drawn = "const svg = document.getElementById('picture'); return svg.viewBox.baseVal.width === svg.clientWidth"
    page.until(lambda: page.script(drawn), "the picture does not follow the window")
    page.driver.save_screenshot(str(path))
    kept_small(path)


def printed(page: Page, path: Path) -> None:
    """The first page of the print, by Ghostscript."""
    made = page.driver.execute_cdp_cmd("Page.printToPDF", {"preferCSSPageSize": True, "printBackground": True})
    pdf = path.with_suffix(".pdf")
    pdf.write_bytes(base64.b64decode(made["data"]))
    smooth = ["-dTextAlphaBits=4", "-dGraphicsAlphaBits=4", f"-r{PRINT_DOTS}", "-dLastPage=1"]
    command = ["gs", "-q", "-dBATCH", "-dNOPAUSE", "-sDEVICE=png16m", *smooth, f"-sOutputFile={path}", str(pdf)]
    subprocess.run(command, check=True)
    pdf.unlink()
    kept_small(path)


def roof_pictures(page: Page, folder: Path) -> None:
    """The roof at all sizes, dark, refused and in print."""
    page.key("coefficient-3-earlywood", "ArrowUp", shift=True)
    page.until(lambda: page.count("path.ghost") == 2, "there is no former curve")
    for name, size in {"roof": DESK, "small": SMALL, "phone": PHONE, "narrow": DOUBLE}.items():
        shot(page, size, folder / f"{name}.png")
    page.media(prefers_color_scheme="dark")
    shot(page, DESK, folder / "dark.png")
    page.media()
    page.press("undo")
    page.choose("order-0", "2")
    page.until(page.is_stale, "the order that is too high is not refused")
    shot(page, DESK, folder / "refused.png")
    page.press("undo")
    page.until(lambda: not page.is_stale(), "the refusal stays")
    printed(page, folder / "print.png")


def take_pictures(driver: webdriver.Chrome, serving: Serving, folder: Path) -> None:
    """Take all pictures into a folder."""
    folder.mkdir(parents=True, exist_ok=True)
    with serving(*ROOF_PAGE) as address:
        page = Page(driver, address, folder)
        roof_pictures(page, folder)
        page.leave()
    with serving(OAK) as address:
        page = Page(driver, address, folder)
        page.press("next", "zoom-in")
        page.click("#others")
        page.until(lambda: page.count("path.other") == 1 and page.count("path.ghost") == 1, "no other series is there")
        shot(page, DESK, folder / "series.png")
        page.leave()
    with serving("--curve", BEAM) as address:
        page = Page(driver, address, folder)
        shot(page, DESK, folder / "beam.png")
        page.leave()
