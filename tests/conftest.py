"""What the tests share: the archives, drivers and programs, and which tests go first."""

from __future__ import annotations

from pathlib import Path
from typing import Any

import pytest
from building import CURVES, INDICES, ROOT, SET_UP, Built, built_once, ended, proved_programs

# Scripts that the tests start as programs, and data beside them: pytest takes up test_*.py alone.
collect_ignore_glob = ["reference/*", "outside/*", "driver/*"]


AT_ONCE = 3  # tests that one process knows of: the one that runs and the next ones


def seconds_of(item: pytest.Item) -> float:
    """About how long a test takes, by its mark; nothing without one."""
    mark = item.get_closest_marker("long")
    return float(mark.args[0]) if mark else 0


def pytest_collection_modifyitems(items: list[pytest.Item]) -> None:
    """The longest tests go first, so that no processor waits for one of them at the end."""
    items.sort(key=seconds_of, reverse=True)


@pytest.hookimpl(optionalhook=True)
def pytest_xdist_make_scheduler(config: pytest.Config, log: Any) -> Any:
    """Each process is given few tests at a time: xdist's own choice gives the first process a quarter of them, all long ones."""
    from xdist.scheduler import LoadScheduling

    class FewAtOnce(LoadScheduling):  # type: ignore[misc]
        """Tests in their order, to whichever process is ready for one."""

        def _send_tests(self, node: Any, num: int) -> None:
            super()._send_tests(node, max(0, min(num, AT_ONCE - len(self.node2pending[node]))))

    return FewAtOnce(config, log)


def pytest_configure(config: pytest.Config) -> None:
    """The one mark of these tests; and the package, which the tests of the screen import."""
    config.addinivalue_line(
        "markers", "long(seconds): takes longer than ten seconds, about so many, and is started early"
    )
    if not (ROOT / "target/lib/libwalzhik.so").exists():
        ended(SET_UP)


@pytest.fixture(scope="session")
def built(tmp_path_factory: pytest.TempPathFactory) -> Built:
    """The folder of all that is built, one for all processes of this run, with the archives and programs in target/."""
    return built_once(tmp_path_factory.getbasetemp())


@pytest.fixture(scope="session")
def programs(built: Built) -> Path:
    """The folder of the proved programs."""
    return proved_programs(built)


@pytest.fixture(scope="session")
def driver(built: Built) -> Path:
    """The driver of all calls on lists."""
    return built.c("driver", "tests/driver/driver.c", CURVES, INDICES)


@pytest.fixture(scope="session")
def tucson_driver(built: Built) -> Path:
    """The driver of the calls for Tucson files."""
    return built.c("tucson", "tests/driver/tucson.c", CURVES)


@pytest.fixture(scope="session")
def package(built: Built) -> None:
    """The Python package over the archives, as the command sets it up."""
    built.once("package", lambda _: ended(SET_UP))
