#!/usr/bin/python3
"""The manual's pictures of the screen, taken in Debian's chromium. The tests of the screen are browser/test_*.py, by pytest.

    /usr/bin/python3 tests/screen.py --pictures FOLDER
"""

from __future__ import annotations

import argparse
import os
import sys
import tempfile
from pathlib import Path

ROOT = Path(__file__).resolve().parents[1]
sys.path[:0] = [str(ROOT / "python/src"), str(ROOT / "tests")]
os.environ.setdefault("WALZHIK_ROOT", str(ROOT))

from browser.page import browser  # noqa: E402
from browser.pictures import take_pictures  # noqa: E402
from browser.stage import serving  # noqa: E402


def main() -> None:
    """Take the pictures into the folder."""
    parser = argparse.ArgumentParser(description=__doc__, formatter_class=argparse.RawDescriptionHelpFormatter)
    parser.add_argument("--pictures", type=Path, required=True)
    asked = parser.parse_args()
    with tempfile.TemporaryDirectory() as made, browser(Path(made) / "saved") as driver:
        take_pictures(driver, serving, asked.pictures)


if __name__ == "__main__":
    main()
