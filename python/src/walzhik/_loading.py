"""Loading modules without looking for garbage: they make many objects, and keep them to the end. Apart because a command and
the data bank's workers both load what is large, and start a fifth faster so.
"""

from __future__ import annotations

import gc
from collections.abc import Iterator
from contextlib import contextmanager


@contextmanager
def loading() -> Iterator[None]:
    """Let the garbage collector wait while modules are loaded, and leave all that is there alone from then on.

    Examples
    --------
    >>> with loading():
    ...     gc.isenabled()
    False
    >>> gc.isenabled()
    True
    """
    gc.disable()
    try:
        yield
    finally:
        gc.freeze()
        gc.enable()
