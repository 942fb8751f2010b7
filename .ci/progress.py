"""Shows how far the kit is: reads what `.ci/build NAME...` says from standard input and tells on standard error how many crates are
proved, and about how many seconds are left by the times in the table .ci/times. With --table it makes that table from the lines of
the crates and of their proofs, since the kit gives no seconds: SECONDS are those of a first build of all.

usage: progress.py show NAME... | progress.py --table SECONDS
"""

from __future__ import annotations

import re
import sys
import time
from collections.abc import Iterable, Sequence
from pathlib import Path

ROOT = Path(__file__).resolve().parents[1]
TABLE = ROOT / ".ci/times"
WHOLE = "whole"  # the row of the table for one call of what the set-up needs, in seconds of a clock
LEAST = 0.5  # seconds of a crate that takes none by the kit's clock
PROVED = re.compile(r"^== (\w+)$")  # the kit's head of what it says of a crate, once that is checked
STEPS = 10  # lines for a whole call, where they go to a file
CALIBRATED = 0.1  # the share from which on this machine's own pace counts


def dependencies() -> dict[str, list[str]]:
    """What each crate of crates.txt names."""
    lines = (ROOT / "crates.txt").read_text(encoding="ascii").splitlines()
    rows = [line.partition(":") for line in lines if line and not line.startswith("#")]
    return {name.split()[0]: rest.split() for name, _, rest in rows}


def needed(names: Iterable[str]) -> set[str]:
    """The crates that these rest on, and themselves."""
    table, found, left = dependencies(), set(), list(names)
    while left:
        name = left.pop()
        if name in table and name not in found:
            found.add(name)
            left += table[name]
    return found


def times() -> dict[str, float]:
    """The table's seconds by crate."""
    rows = (
        [line.split() for line in TABLE.read_text(encoding="ascii").splitlines() if not line.startswith("#")]
        if TABLE.exists()
        else []
    )
    return {name: max(float(seconds), LEAST) for name, seconds in rows}


def seconds_left(waiting: set[str], crates: set[str], elapsed: float) -> float | None:
    """The seconds left by the table, at this machine's own pace as soon as it is known; None without a table."""
    known = times()
    if WHOLE not in known:
        return None
    spent = sum(known.get(name, LEAST) for name in crates - waiting)
    total = sum(known.get(name, LEAST) for name in crates)
    if spent > CALIBRATED * total:
        return elapsed * (total - spent) / spent
    return known[WHOLE] * (total - spent) / total


def show(names: Sequence[str]) -> None:
    """Tell how far a call is, in one line on a screen and in some lines of a file."""
    crates = needed(names)
    waiting, begun, told = set(crates), time.monotonic(), -1
    for line in sys.stdin:
        found = PROVED.match(line)
        if not found or found[1] not in waiting:
            continue
        waiting.discard(found[1])
        done, step = len(crates) - len(waiting), (len(crates) - len(waiting)) * STEPS // len(crates)
        left = seconds_left(waiting, crates, time.monotonic() - begun)
        words = f"walzhik: {done} of {len(crates)} crates proved" + (
            "" if left is None else f", about {left:.0f} s left"
        )
        if sys.stderr.isatty():
            print(f"\r\033[K{words}", end="" if waiting else "\n", file=sys.stderr, flush=True)
        elif step > told:
            told = step
            print(words, file=sys.stderr, flush=True)


def weight(crate: str) -> int:
    """The lines that the kit reads of a crate."""
    inside = (path for part in ("src", "specs", "proofs") for path in (ROOT / "crates" / crate / part).rglob("*.*t"))
    return sum(len(path.read_text("utf-8").splitlines()) for path in inside if path.suffix in (".rt", ".antt"))


def make_table(whole: str) -> None:
    """Write the table: the seconds of a first build of all, shared out by the crates' lines."""
    lines = {name: weight(name) for name in dependencies()}
    share = float(whole) / sum(lines.values())
    rows = [f"{name} {share * count:.1f}\n" for name, count in lines.items()]
    head = "# Seconds by crate, and for one call of what the set-up needs, on the clock: made by .ci/progress.py --table SECONDS\n"
    TABLE.write_text(f"{head}{WHOLE} {float(whole):.0f}\n{''.join(rows)}", encoding="ascii")


def main(arguments: Sequence[str]) -> None:
    if arguments[0] == "--table":
        make_table(arguments[1])
    else:
        show(arguments[1:])


if __name__ == "__main__":
    main(sys.argv[1:])
