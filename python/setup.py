"""Puts the engine into the installed package: the shared object linked from the proved archives, the headers that
declare it, the proved program and the record of what was proved. All else of the installation stands in pyproject.toml.
"""

import shutil
import sys
from pathlib import Path

from setuptools import setup
from setuptools.command.build_py import build_py
from wheel.bdist_wheel import bdist_wheel

HERE = Path(__file__).resolve().parent
sys.path.insert(0, str(HERE / "src" / "walzhik"))

import _build  # noqa: E402
import _proof  # noqa: E402


class BuildWithEngine(build_py):
    """Copies the package, and the engine into its folder _native."""

    def run(self) -> None:
        super().run()
        root = HERE.parent
        needed = [*_build.archives(root), *(root / "target" / "bin" / name for name in _build.PROGRAMS)]
        missing = [str(path.relative_to(root)) for path in needed if not path.exists()]
        if missing:
            raise SystemExit(f"The engine is not built: {', '.join(missing)} missing. Run ./walzhik in {root} first.")
        native = Path(self.build_lib) / "walzhik" / "_native"
        _build.link(_build.archives(root), native / _build.LIBRARY)
        for path in [*_build.headers(root / "include"), *needed[len(_build.archives(root)) :]]:
            shutil.copy(path, native / path.name)
        _build.declare(native, native)
        held = [(_build.LIBRARY, _proof.ALL_CALLS), *((name, f"target/bin/{name}") for name in _build.PROGRAMS)]
        (native / f"walzhik{_proof.ENDING}").write_text(_proof.record(root, "walzhik", native, held).text(), "utf-8")


class WheelOfThisMachine(bdist_wheel):
    """A wheel whose name says which machines its code is for; any Python 3 loads it."""

    def finalize_options(self) -> None:
        super().finalize_options()
        self.root_is_pure = False

    def get_tag(self) -> tuple[str, str, str]:
        return "py3", "none", super().get_tag()[2]


HEADER = HERE.parent / "include" / "walzhik.h"

setup(
    version=_build.version(HEADER.read_text(encoding="ascii")),
    cmdclass={"build_py": BuildWithEngine, "bdist_wheel": WheelOfThisMachine},
)
