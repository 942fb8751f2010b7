"""Holds the proofs to one rule of layout: a state more than four steps back has a name.

usage: proofs_layout.py [--self-test]

In a proof, `c.before` is the state before c. A chain of five or more is the
whole right side of a `let`, of a field or of a definition, perhaps with the
part of the state that is meant: `let s = c.before .. .before.args in`,
`let s = (b c.before .. .before).args in`.
--self-test shows that other chains are found.
"""

from __future__ import annotations

import re
import sys
from pathlib import Path

from layout_left import beyond
from names import status_of

ROOT = Path(__file__).resolve().parent.parent
LONGEST = 4  # steps back without a name
CHAIN = re.compile(rf"(?:\s*\.before\b){{{LONGEST + 1},}}")
# What stands between `=` and its chain: a state, or a definition applied to states, which has brackets where a part of it is meant.
WORDS = r"(?:[^\s(){};,.=]+|\([^()]*\))"
NAME = re.compile(rf"(?<!\S)=(?:\s+{WORDS})+\Z")
NAME_OF_A_PART = re.compile(rf"(?<!\S)=\s+\({WORDS}(?:\s+{WORDS})+\Z")
# What ends the right side, behind the parts of the state.
REST = r"(?:\s+in\b|\s*[;}]|\n\n|\n?\Z)"
END = re.compile(r"(?:\s*\.[\w-]+)*" + REST)
END_OF_A_PART = re.compile(r"(?:\.[\w-]+)*\)(?:\.[\w-]+)+" + REST)


def is_named(text: str, chain: re.Match[str]) -> bool:
    """Whether a chain is the right side of a `let`, of a field or of a definition."""
    before = text[max(0, chain.start() - 200) : chain.start()]
    return bool(
        (NAME.search(before) and END.match(text, chain.end()))
        or (NAME_OF_A_PART.search(before) and END_OF_A_PART.match(text, chain.end()))
    )


def unnamed(text: str) -> list[int]:
    """The lines on which a chain without a name ends."""
    return [
        text.count("\n", 0, chain.end()) + 1
        for chain in CHAIN.finditer(text)
        if not is_named(text, chain)
    ]


def self_test() -> int:
    """Chains without a name are found, named and short ones are not."""
    back = ".before" * (LONGEST + 1)
    wrong = [
        f"f c = g (c{back})\n",
        f"f c = g c{back}.args.text (h c)\n",
        f"f c = c{back}.pre ∙ h\n",
        f"f c = let s = g (c{back}) in s\n",
        f"f : (c : A) → P c{back}.args\n",
        f"f c = c{back}\n    (h c)\n",
        f"f = (λ c. c{back}.loop)\n",
        f"f c = g ((h c){back})\n",
        f"f c = let s = (g c{back}) in s\n",
        f"f c = let s = (g c{back}).args ∙ h in s\n",
        "f c = g (c" + back.replace(".before", "\n    .before", 1) + ")\n",
        "f c = g (c" + back.replace(".before", " .before") + ")\n",
    ]
    right = [
        f"f c = g c{'.before' * LONGEST}\n",
        f"f c = c{back}\n",
        f"f c = (h c){back}\n",
        f"  abbrev s : A\n  s = b c{back}.args.text.now\n\nf = g\n",
        f"f c = let s = c{back}.args in g s\n",
        f"f : (c : A) → let s = c{back} in P s\n",
        f"f c = let s = (b c{back}).args.text in g s\n",
        f"f c = record {{ sfits = c{back}.told.given.0.1 }}\n",
    ]
    missed = [f"not found: {text!r}" for text in wrong if not unnamed(text)]
    missed += [f"found: {text!r}" for text in right if unnamed(text)]
    for fault in missed:
        print(f"self-test: {fault}")
    return 1 if missed else 0


def main() -> int:
    if sys.argv[1:] == ["--self-test"]:
        return self_test()
    paths = sorted(ROOT.glob("crates/*/proofs/**/*.antt"))
    found = [
        (str(path.relative_to(ROOT)), f"{path.relative_to(ROOT)}:{line}: a chain of more than {LONGEST} .before has no name")
        for path in paths
        for line in unnamed(path.read_text(encoding="utf-8"))
    ]
    found = beyond("proofs_layout", found)
    return status_of(found, f"layout of the proofs: {len(paths)} files")


if __name__ == "__main__":
    sys.exit(main())
