"""Walzhik: growth curves of earlywood and latewood, and ring indices by them, from an engine that is proved.

The package is a thin layer: what a proved call works out is never worked out here. It is tested, not proved. The names
below and the modules ``walzhik.explain``, ``fit``, ``plot``, ``recover``, ``sheet``, ``tucson`` and ``widths`` are loaded when they
are first asked for, so that ``import walzhik`` is enough: ``walzhik.fit.fit``, ``walzhik.tucson.read``.

Examples
--------
>>> from walzhik import Curve, Space
>>> space = Space([0, 20, 60], [2, 2], [1])
>>> curve = Curve(space, [2400, 1600, 1000, 900])
>>> curve.indices([2100, 0, 1900], first=10)
array([1200,   -1, 1147])
"""

from __future__ import annotations

from importlib import import_module
from typing import TYPE_CHECKING

if TYPE_CHECKING:
    from . import explain, fit, notes, plot, recover, sheet, tucson, widths
    from ._engine import __version__
    from .curve import Curve, Piece
    from .errors import Refused
    from .space import Space, Weights

__all__ = ["Curve", "Piece", "Refused", "Space", "Weights", "__version__"]

HOMES = {
    "Curve": "curve",
    "Piece": "curve",
    "Refused": "errors",
    "Space": "space",
    "Weights": "space",
    "__version__": "_engine",
}


MODULES = ("explain", "fit", "notes", "plot", "recover", "sheet", "tucson", "widths")


def __dir__() -> list[str]:
    return sorted({*globals(), *__all__, *MODULES})


def __getattr__(name: str) -> object:
    """Load a name's module when it is first asked for, so that the command can say what is missing where the engine is
    not built."""
    if name in MODULES:
        return import_module(f"{__name__}.{name}")
    if name not in HOMES:
        raise AttributeError(f"module {__name__!r} has no attribute {name!r}")
    return getattr(import_module(f"{__name__}.{HOMES[name]}"), name)
