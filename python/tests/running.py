"""Where the checkout is, and how a command ends. A module of its own, because two folders of tests have a conftest."""

from __future__ import annotations

from collections.abc import Callable
from pathlib import Path
from typing import NamedTuple

ROOT = Path(__file__).resolve().parents[2]


class Ended(NamedTuple):
    """How a command has ended."""

    status: int
    out: str
    err: str


Run = Callable[..., Ended]
