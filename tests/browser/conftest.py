"""A page of the screen for each test: its own tab in one browser, and a server for each set of arguments."""

from __future__ import annotations

import os
from collections.abc import Iterator
from contextlib import ExitStack
from pathlib import Path
from typing import NamedTuple

import pytest
from selenium import webdriver

ROOT = Path(__file__).resolve().parents[2]
os.environ.setdefault("WALZHIK_ROOT", str(ROOT))

from .page import Page, browser  # noqa: E402
from .stage import ROOF_PAGE, Stage  # noqa: E402

SEVERE = "SEVERE"


class Desk(NamedTuple):
    """One browser, its servers, and where it saves."""

    driver: webdriver.Chrome
    stage: Stage
    saved: Path


@pytest.fixture(scope="session")
def desk(tmp_path_factory: pytest.TempPathFactory, package: None) -> Iterator[Desk]:
    """The browser of all tests of this process."""
    folder = tmp_path_factory.mktemp("screen")
    with ExitStack() as stack:
        stage = Stage(folder, stack)
        yield Desk(stack.enter_context(browser(folder / "saved")), stage, folder / "saved")


@pytest.fixture
def page(desk: Desk, request: pytest.FixtureRequest) -> Iterator[Page]:
    """The page that a test looks at; the browser must not have complained of it."""
    test = request.function
    shown = Page(desk.driver, desk.stage.address(getattr(test, "arguments", ROOF_PAGE)), desk.saved)
    yield shown
    allowed = getattr(test, "complaints", "nothing is allowed")
    errors = [each for each in desk.driver.get_log("browser") if each["level"] == SEVERE]
    shown.leave()
    assert not [each for each in errors if allowed not in each["message"]], errors
