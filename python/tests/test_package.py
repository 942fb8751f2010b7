"""The package as a whole: `import walzhik` is enough for its names and modules."""

from __future__ import annotations

import subprocess
import sys

import pytest
from running import ROOT


@pytest.mark.parametrize(
    "expression",
    [
        "walzhik.fit.fit",
        "walzhik.fit.template(100, 1703)",
        "walzhik.tucson.read",
        "walzhik.sheet.read",
        "walzhik.recover.recover",
        "walzhik.plot.picture",
        "walzhik.explain.explain_sheet",
        "walzhik.Curve",
    ],
)
def test_modules_load_when_they_are_asked_for(expression: str) -> None:
    code = f"import sys, walzhik; assert 'numpy' not in sys.modules; assert {expression}"
    path = {"PYTHONPATH": str(ROOT / "python" / "src"), "WALZHIK_ROOT": str(ROOT)}
    ended = subprocess.run([sys.executable, "-c", code], env=path, capture_output=True, text=True, check=False)
    assert ended.returncode == 0, ended.stderr


def test_names_are_listed_and_others_are_not_there() -> None:
    import walzhik

    assert {"Space", "fit", "tucson"} <= set(dir(walzhik))
    with pytest.raises(AttributeError, match="no attribute 'fits'"):
        walzhik.fits  # type: ignore[attr-defined]
