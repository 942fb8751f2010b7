"""What is asked of every file of a data bank, and what works it out: plain values that can be sent to a worker, and a
hash of each, by which a later run knows whether a file must be done again.
"""

from __future__ import annotations

import json
from functools import lru_cache
from hashlib import sha256
from pathlib import Path
from typing import Literal, NamedTuple

from .. import _build
from .._engine import found
from ..choosing import Names
from ..counting import Counting
from ..curve import Curve
from ..fit import Shape
from ..fit_series import Asked as AskedFits
from ..formats import Form
from ..sheet import Sheet
from ..space import Space
from ..tucson import Unit
from ..widths import Asked


class Options(NamedTuple):
    """What is asked of every file.

    Attributes
    ----------
    ending : {"csv", "rwl"}
        How the indices are written.
    space : tuple of three lists, or None
        Breakpoints, degrees and orders of the fits; None for a template for each series.
    sheet : tuple of four lists, or None
        Breakpoints, degrees, orders and pairs of the curve that divides all series; None for fits.
    names : tuple of three lists of patterns
        The series, those of the earlywood and those of the latewood that are asked for; all where none is.
    first, each_first : int or None
        As `walzhik.counting.Counting` has them, for the series of a file that are taken; None where rings are years.
    shape : {"auto", "falling", "hump", "free"}
        Of the fits.
    scars : list of int
        The last ring before each scar of the templates, where a series has rings on both sides of it.
    strict : bool
    header : int or None
        How many lines the header of each Tucson file has; None where the call finds it.
    unit : {"hundredths", "thousandths"} or None
    form : {"tucson", "fh", "csv"} or None
        What every file is; None for what its ending says.
    asked : Asked
        What is asked of the fronts for Heidelberg files and tables.
    """

    ending: Literal["csv", "rwl"] = "csv"
    space: tuple[list[int], list[int], list[int]] | None = None
    sheet: tuple[list[int], list[int], list[int], list[tuple[int, int]]] | None = None
    names: Names = Names((), (), ())
    first: int | None = None
    each_first: int | None = None
    shape: Shape = "auto"
    scars: tuple[int, ...] = ()
    strict: bool = False
    header: int | None = None
    unit: Unit | None = None
    form: Form | None = None
    asked: Asked = Asked()

    def key(self) -> str:
        """The hash of the options.

        Examples
        --------
        >>> Options().key() == Options().key() != Options(first=1).key()
        True
        """
        return sha256(json.dumps(self).encode("ascii")).hexdigest()

    def told(self) -> str:
        """The options in words that are not as they are without being asked for.

        Examples
        --------
        >>> Options(ending="rwl", first=1).told(), Options().told()
        ('ending rwl, first 1', 'none')
        """
        plain = Options()._asdict()
        said = []
        for name, value in self._asdict().items():
            if value != plain[name]:
                said.append(
                    f"{name.replace('_', ' ')} {value._asdict() if isinstance(value, (Names, Asked)) else value}"
                )
        return ", ".join(said) or "none"

    def counting(self) -> Counting:
        """How the rings of a file are counted."""
        return Counting(self.first, self.each_first)

    def fits(self) -> AskedFits:
        """What is asked of the fits."""
        return AskedFits(None if self.space is None else Space(*self.space), self.shape, self.scars)

    def given_curve(self) -> Curve | None:
        """The curve that divides all series, where it is given."""
        return None if self.sheet is None else Sheet(*self.sheet).curve()


@lru_cache(maxsize=None)
def version() -> str:
    """The hash of what works the outputs out: this package, the engine, NumPy and SciPy."""
    import numpy
    import scipy

    package = Path(__file__).resolve().parents[1]
    files = sorted([*package.rglob("*.py"), package / "words" / "words.tsv"])
    made = sha256(f"{numpy.__version__} {scipy.__version__}".encode("ascii"))
    for path in [*files, found(_build.LIBRARY, f"target/lib/{_build.LIBRARY}")]:
        made.update(sha256(path.read_bytes()).digest())
    return made.hexdigest()
