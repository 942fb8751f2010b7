"""Holds the lines of the crates within their columns: 140 in sources and definitions, 200 in proofs.

usage: columns.py [--self-test]
"""

import sys
from pathlib import Path

from layout_left import beyond

ROOT = Path(__file__).resolve().parent.parent
LIMITS = {"src/**/*.rt": 140, "specs/**/*.antt": 140, "proofs/**/*.antt": 200}


def long_lines(text: str, limit: int) -> list[int]:
    """The numbers of the lines with more columns than the limit."""
    return [number for number, line in enumerate(text.splitlines(), 1) if len(line) > limit]


def main() -> int:
    if sys.argv[1:] == ["--self-test"]:
        found = long_lines(f"{'a' * 140}\n{'ℤ' * 141}\n", 140)
        print(f"columns: a line of 141 columns is {'found' if found == [2] else 'NOT found'}")
        worse = beyond("columns", [("a", "a:1"), ("a", "a:2"), ("b", "b:1")], {"a": 1, "b": 1})
        fewer = beyond("columns", [("a", "a:1")], {"a": 2})
        told = worse == ["a:1", "a:2"] and len(fewer) == 1
        print(f"columns: a file with more faults than its row says is {'found' if told else 'NOT found'}")
        return found != [2] or not told
    faults = [
        (str(path.relative_to(ROOT)), f"{path.relative_to(ROOT)}:{number}: more than {limit} columns")
        for pattern, limit in LIMITS.items()
        for path in sorted(ROOT.glob(f"crates/*/{pattern}"))
        for number in long_lines(path.read_text(encoding="utf-8"), limit)
    ]
    faults = beyond("columns", faults)
    print("\n".join([*faults, f"columns: {len(faults)} faults"]))
    return bool(faults)


if __name__ == "__main__":
    sys.exit(main())
