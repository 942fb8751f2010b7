"""Many calls: memory does not grow over 100,000 of them, and threads that call at the same time get what one thread
gets."""

from __future__ import annotations

import gc
from collections.abc import Callable
from concurrent.futures import ThreadPoolExecutor
from pathlib import Path

import numpy as np
import pytest

from walzhik import Curve, Refused, Space, tucson

CALLS = 100_000
WARMING = 5_000
PAGES = 128  # half a megabyte: what 100,000 calls may add, far below five bytes a call
THREADS, ROUNDS = 8, 300
WIDTHS = np.arange(500, 530, dtype=np.int32)
TEXT = b"FEW     1998    12     9\nFEW     2000     7 -9999\n"


def pages() -> int:
    """The memory that the process holds."""
    gc.collect()
    return int(Path("/proc/self/statm").read_text().split()[1])


def curve(shift: int = 0) -> Curve:
    return Curve(Space([0, 10, 30], [2, 1], [0]), [[900 + shift, 400], [800, 300], [700, 200 + shift], [600, 100]])


def refused() -> None:
    try:
        curve().values([-1])
    except Refused:
        pass


FIXED = curve()
CALLS_OF = {
    "indices": lambda: FIXED.indices(WIDTHS, 0, "earlywood"),
    "values": lambda: FIXED.values([0, 256]),
    "reach": lambda: FIXED.reach(700, "earlywood"),
    "piece": lambda: FIXED.piece(1, "latewood"),
    "spaces": lambda: Space([0, 10, 30], [2, 1], [0]),
    "texts": lambda: tucson.write(tucson.read_strict(TEXT)),
}


@pytest.mark.skipif(not Path("/proc/self/statm").exists(), reason="only Linux says there what a process holds")
def test_memory_does_not_grow() -> None:
    for call in CALLS_OF.values():
        for _ in range(WARMING):
            call()
    before = pages()
    for call in CALLS_OF.values():
        for _ in range(CALLS // len(CALLS_OF)):
            call()
    assert pages() - before <= PAGES


@pytest.mark.skipif(not Path("/proc/self/statm").exists(), reason="only Linux says there what a process holds")
def test_refusals_keep_nothing() -> None:
    for _ in range(WARMING // 5):
        refused()
    before = pages()
    for _ in range(WARMING):
        refused()
    assert pages() - before <= PAGES


def job(number: int) -> list[object]:
    """Calls of all kinds over lists of the thread's own, and what they give."""
    own = curve(number)
    given: list[object] = []
    for step in range(ROUNDS):
        widths = WIDTHS + (number + step) % 7
        given.append(own.indices(widths, step % 2, "earlywood" if step % 3 else "latewood").tolist())
        given.append(own.values([256 * (step % 30)]).tolist())
        given.append([str(weight) for _, _, weight in Space([0, 1 + number, 30], [2, 2], [1]).weights.fractions()])
    return given


def test_threads_get_what_one_thread_gets() -> None:
    expected = [job(number) for number in range(THREADS)]
    with ThreadPoolExecutor(THREADS) as pool:
        assert list(pool.map(job, range(THREADS))) == expected


def test_a_call_keeps_to_its_threads_buffers() -> None:
    from walzhik._engine import lent

    def address() -> int:
        return int(lent.numerators.ctypes.data)

    with ThreadPoolExecutor(1) as pool:
        other: Callable[[], int] = pool.submit(address).result
        assert other() != address() == address()
