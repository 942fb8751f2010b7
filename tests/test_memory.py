"""What the calls do with memory: reads outside, null pointers, the stack."""

from __future__ import annotations

import pytest
from building import CURVES, INDICES, Built, ended


@pytest.mark.long(100)
def test_reads_outside_are_seen(built: Built) -> None:
    """The drivers' guards find every read outside lent memory."""
    outside = "tests/driver/outside.c"
    drivers = [built.c(f"outside_{name}", f"tests/driver/{name}.c", outside) for name in ("driver", "tucson")]
    ended(["tests/outside.sh", *drivers])


def test_empty_lists(built: Built) -> None:
    """The answers to empty lists, null pointers too."""
    ended([built.c("empty", "tests/driver/empty.c", CURVES, INDICES)])


def test_no_call_gets_a_null_pointer(built: Built) -> None:
    """The header lends the calls a valid pointer of its own."""
    ended([built.c("nulls", "tests/driver/empty.c", "tests/driver/nulls.c")])


def test_needed_from_outside(built: Built) -> None:
    """The archives need two functions of the C library, and nothing else from outside."""
    for archive in (CURVES, INDICES):
        needed = {line.split()[-1] for line in ended(["nm", "-u", archive]).splitlines() if line.startswith(" ")}
        assert needed == {"memcpy", "memset"}, archive


def test_stack(built: Built) -> None:
    """No call needs more stack than the headers say."""
    ended([built.c("stack", "tests/driver/stack.c", CURVES, INDICES, "-lpthread", "-Wl,-z,now")])
