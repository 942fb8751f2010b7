"""One thread for the numerical libraries: a sum in another order could round another way, so that a fit would depend on
how many cores a machine has. The libraries look at the environment when they are loaded, so this comes before that.
"""

from __future__ import annotations

import os
import sys

THREADS = ("OMP_NUM_THREADS", "OPENBLAS_NUM_THREADS", "MKL_NUM_THREADS")
ONE_THREAD = dict.fromkeys(THREADS, "1")


def keep_to_one() -> None:
    """Tell the numerical libraries to keep to one thread, if they are not loaded yet."""
    if "numpy" not in sys.modules:
        os.environ.update(ONE_THREAD)


def is_one_thread() -> bool:
    """Whether numerical libraries were told, before they were loaded, to keep to one thread."""
    return all(os.environ.get(name) == number for name, number in ONE_THREAD.items())
