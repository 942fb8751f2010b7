"""The report's page: what was asked, what went well, what was refused and why, the lengths, the slowest files and some
pictures. It needs nothing but itself. The template escapes all that is put into it, since names come from files.
"""

from __future__ import annotations

from collections.abc import Sequence
from datetime import datetime
from functools import lru_cache
from importlib.util import find_spec
from typing import TYPE_CHECKING, NamedTuple

from .._engine import __version__
from ..failures import Unusable
from . import sketch
from .options import Options, version
from .report import Summary, counted
from .sketch import Picture

if TYPE_CHECKING:
    from jinja2 import Template

TEMPLATE = "report.html.jinja"
SHOWN_HASH = 12  # digits


class About(NamedTuple):
    """What a run was asked for, by whom it was done, and when."""

    title: str
    inputs: Sequence[str]
    options: str
    version: str
    date: str

    @classmethod
    def now(cls, title: str, inputs: Sequence[str], options: Options) -> About:
        """A run that ends now."""
        date = datetime.now().astimezone().strftime("%d %B %Y, %H:%M:%S %z")
        return cls(title, inputs, options.told(), f"{__version__} ({version()[:SHOWN_HASH]})", date)

    def rows(self) -> list[tuple[str, str]]:
        """What the page's first table says."""
        told = [("ended", self.date), ("version", self.version), ("options", self.options)]
        return told + [("input", each) for each in self.inputs]


def ask_for_jinja() -> None:
    """Whether there can be a page.

    Raises
    ------
    Unusable
        If Jinja is not installed.
    """
    if find_spec("jinja2") is None:
        raise Unusable("The data bank's report needs the Debian package python3-jinja2.")


@lru_cache(maxsize=None)
def template() -> Template:
    """The page's template, compiled; what is put into it is escaped."""
    from jinja2 import Environment, PackageLoader, StrictUndefined

    made = Environment(
        loader=PackageLoader("walzhik.bank", "."),
        autoescape=True,
        undefined=StrictUndefined,
        trim_blocks=True,
        lstrip_blocks=True,
    )
    made.filters["counted"] = counted
    made.filters["points"] = lambda points: " ".join(f"{x},{y}" for x, y in points)
    return made.get_template(TEMPLATE)


def page(summary: Summary, about: About, pictures: Sequence[Picture]) -> str:
    """The page."""
    bars = sketch.bars(summary.lengths) if summary.lengths else []
    most = max((count for _, _, count in sketch.bins(summary.lengths)), default=0) if bars else 0
    return template().render(summary=summary, about=about, pictures=pictures, bars=bars, most=most, sketch=sketch)
