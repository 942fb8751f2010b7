"""The loader of the engine: the shared object that is linked from the proved archives, with declarations and constants
read from the C headers themselves. What a call needs lent, buffers and whole numbers of 32 bits, is made here once for
all modules.
"""

from __future__ import annotations

import threading
from functools import lru_cache
from importlib.util import module_from_spec, spec_from_file_location
from typing import TYPE_CHECKING, Any

import cffi
import numpy as np

from . import _build
from ._place import INSTALLED, root

if TYPE_CHECKING:
    from collections.abc import Sequence
    from pathlib import Path

    from numpy.typing import NDArray

    Wholes = Sequence[int] | NDArray[np.integer[Any]]

MOST_POSITIONS = 4_096  # of one call
LEAST_WORD, MOST_WORD = -(2**31), 2**31 - 1


class Unavailable(ImportError):
    """The engine is not built where the package looks for it."""


def found(installed: str, built: str) -> Path:
    """A file of the engine: beside an installed package, else in the checkout.

    Raises
    ------
    Unavailable
        If it is in neither place.
    """
    for path in (INSTALLED / installed, root() / built):
        if path.exists():
            return path
    raise Unavailable(
        f"The engine is not built: {root() / built} is missing. ./walzhik at the checkout's root builds it."
    )


def program(name: str) -> Path:
    """A proved program, as ``sheet``."""
    return found(name, f"target/bin/{name}")


def _declared(text: str, folder: Path) -> Any:
    """The declarations as they are kept beside the shared object, or read now where they are not."""
    name = _build.declared_module(text)
    kept = spec_from_file_location(name, folder / f"{name}.py")
    if kept is not None and kept.loader is not None and (folder / f"{name}.py").exists():
        module = module_from_spec(kept)
        try:
            kept.loader.exec_module(module)
            return module.ffi
        except ImportError:  # kept by another cffi
            pass
    read = cffi.FFI()
    read.cdef(text)
    return read


@lru_cache(maxsize=None)
def _loaded() -> tuple[Any, Any, dict[str, int]]:
    library = found(_build.LIBRARY, f"target/lib/{_build.LIBRARY}")
    folder = INSTALLED if library.parent == INSTALLED else root() / "include"
    texts = [header.read_text(encoding="ascii") for header in _build.headers(folder)]
    declared = _declared("\n".join(map(_build.declarations, texts)), library.parent)
    numbers = {name: number for text in texts for name, number in _build.constants(text).items()}
    return declared, declared.dlopen(str(library)), numbers


ffi, library, _CONSTANTS = _loaded()
CELLS = _CONSTANTS["WALZHIK_CELLS"]
LARGEST_PLACE = _CONSTANTS["WALZHIK_LARGEST_PLACE"]
NO_HEADER, NO_UNIT = _CONSTANTS["WALZHIK_NO_HEADER"], _CONSTANTS["WALZHIK_NO_UNIT"]
__version__ = ".".join(str(_CONSTANTS[name]) for name in _build.VERSION_PARTS)
SIDE = int(CELLS**0.5)  # the weights are a square table


class Lent(threading.local):
    """The buffers that a thread lends to its calls, and uses again for the next one.

    Attributes
    ----------
    numerators, denominators : ndarray of int64, shape (SIDE, SIDE)
        The weights of the last part that a call has built.
    text : ndarray of uint8
        What the last call has printed.
    """

    def __init__(self) -> None:
        self.numerators: NDArray[np.int64] = np.zeros((SIDE, SIDE), dtype=np.int64)
        self.denominators: NDArray[np.int64] = np.ones((SIDE, SIDE), dtype=np.int64)
        self.text: NDArray[np.uint8] = np.empty(0, dtype=np.uint8)
        weights = (ffi.from_buffer("int64_t[]", self.numerators), ffi.from_buffer("int64_t[]", self.denominators))
        self.weights = (weights[0], CELLS, weights[1], CELLS)

    def room(self, size: int) -> NDArray[np.uint8]:
        """The buffer for what a call prints, with so many bytes at least."""
        if self.text.size < size:
            self.text = np.empty(size, dtype=np.uint8)
        return self.text


lent = Lent()


def wholes(numbers: Wholes, name: str) -> NDArray[np.int32]:
    """Whole numbers as the engine takes them: 32 bits, one after another, without a copy where they lie so already.

    A number that 32 bits can't hold becomes the nearest one that they can. The engine's ranges all lie far within, so
    it is refused with the same number and place; nothing is decided here.

    Raises
    ------
    TypeError
        If they are no whole numbers: nothing is rounded.

    Examples
    --------
    >>> wholes([0, 10**12], "breaks")
    array([         0, 2147483647], dtype=int32)
    """
    if isinstance(numbers, np.ma.MaskedArray) and bool(np.any(numbers.mask)):
        raise TypeError(f"{name}: whole numbers are needed, but some are masked; fill them first")
    given = np.asarray(numbers)
    if not given.size:
        return np.zeros(given.shape, dtype=np.int32)
    if given.dtype == np.int32:
        return np.asarray(given, order="C")
    if given.dtype == object and all(isinstance(number, int) for number in given.flat):
        words = [min(max(number, LEAST_WORD), MOST_WORD) for number in given.flat]
        return np.array(words, dtype=np.int32).reshape(given.shape)
    if given.dtype.kind not in "iu":
        raise TypeError(f"{name}: whole numbers are needed, not {given.dtype}")
    cast = given.astype(np.int32, order="C")
    if (cast == given).all():
        return cast
    near = np.minimum(given, MOST_WORD) if given.dtype.kind == "u" else np.clip(given, LEAST_WORD, MOST_WORD)
    return near.astype(np.int32, order="C")


def listed(numbers: Wholes, name: str) -> NDArray[np.int32]:
    """A list of whole numbers as the engine takes them; see `wholes`.

    Raises
    ------
    TypeError
        If they have another shape: two series side by side are not one after the other.
    """
    found = wholes(numbers, name)
    if found.ndim != 1:
        raise TypeError(f"{name}: a list of whole numbers is needed, not an array of shape {found.shape}")
    return found


def kept(numbers: Wholes, name: str) -> NDArray[np.int32]:
    """Whole numbers as the engine takes them, in an array of their own that nobody can write to any more."""
    own = wholes(numbers, name).copy()
    own.flags.writeable = False
    return own


def whole(number: int, name: str) -> int:
    """One whole number of 32 bits, or the nearest one, as `wholes` does it."""
    if isinstance(number, (bool, np.bool_)) or not isinstance(number, (int, np.integer)):
        raise TypeError(f"{name}: a whole number is needed, not {type(number).__name__}")
    return min(max(int(number), LEAST_WORD), MOST_WORD)


def pointer(numbers: NDArray[Any], kind: str = "int32_t[]") -> Any:
    """What a call is lent for an array, which must live as long as this is used."""
    return ffi.from_buffer(kind, numbers)
