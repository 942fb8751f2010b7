"""Where the package stands: in a checkout, or installed with the engine beside it."""

from __future__ import annotations

import os
from pathlib import Path

CHECKED_OUT = "./walzhik"  # the command at the checkout's root
INSTALLED = Path(__file__).resolve().parent / "_native"


def root() -> Path:
    """The checkout that the package stands in, or that the environment variable WALZHIK_ROOT names."""
    named = os.environ.get("WALZHIK_ROOT")
    return Path(named) if named else Path(__file__).resolve().parents[3]


def checkout() -> Path | None:
    """The checkout, or None where the package is installed."""
    return None if INSTALLED.exists() else root()


def called() -> str:
    """How the command is called here."""
    return CHECKED_OUT if checkout() else "walzhik"
