"""The examples in C, Rust and R print what stands beside them."""

from __future__ import annotations

from pathlib import Path

import pytest
from building import CURVES, INDICES, ROOT, Built, ended

# The example, what it is linked with, and what it reads.
ARCHIVES = {
    "coefficients": [CURVES],
    "indices": [INDICES],
    "pieces": [CURVES],
    "reach": [CURVES],
    "refused": [INDICES, CURVES],
    "rings": [CURVES, INDICES],
    "tucson": [CURVES],
}
READS = {"rings": "examples/tucson/pine.rwl", "tucson": "examples/tucson/pine.rwl"}
CASES = [
    (language, name)
    for name in ARCHIVES
    for language, folder, ending in (("c", "c", "c"), ("rust", "rust", "rs"))
    if (ROOT / f"examples/{folder}/{name}.{ending}").exists()
]


def made(built: Built, language: str, name: str) -> Path:
    """The example's program."""
    if language == "rust":
        return built.rust(f"{name}_rs", f"examples/rust/{name}.rs")
    return built.c(f"{name}_c", f"examples/c/{name}.c", *ARCHIVES.get(name, [CURVES]))


@pytest.mark.parametrize("language, name", CASES, ids=[f"{name}-{language}" for language, name in CASES])
def test_example(language: str, name: str, built: Built) -> None:
    """One example in one language."""
    program = made(built, language, name)
    command = ["sh", "-c", f"exec {program} <{READS[name]}"] if name in READS else [program]
    assert ended(command) == (ROOT / f"examples/c/{name}.txt").read_text()


def test_every_example_is_tried() -> None:
    """No example in C or Rust is left out."""
    there = {path.stem for folder in ("c", "rust") for path in (ROOT / "examples" / folder).glob("*.[cr]*")}
    assert there == {*ARCHIVES, "curve"}


def test_printouts(built: Built, programs: Path) -> None:
    """The printouts of the sheets and Tucson texts, and the values of the curve in C and Rust."""
    curves = [made(built, language, "curve") for language in ("c", "rust")]
    ended(["tests/examples.sh", *curves, programs / "sheet", programs / "tucson"])


@pytest.mark.long(105)
def test_r(built: Built) -> None:
    """The R package, by R's own check, with its tests, help pages, vignette and the README's lines."""
    ended(["tests/r.sh"])


def test_crate_for_rust(built: Built) -> None:
    """The calls for Rust as a crate, by cargo."""
    folder = built.folder / "cargo"
    ended(["cargo", "test", "--quiet", "--offline", "--manifest-path", "rust/Cargo.toml", "--target-dir", folder])
