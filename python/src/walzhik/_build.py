"""Makes the shared object that the package loads, and reads the declarations and constants that go with it from the C
headers. It stands apart because the launcher and the package's installation run it before anything else of the package
can be imported: it needs Python's standard library alone, and cffi where it keeps the declarations.
"""

from __future__ import annotations

import os
import re
import subprocess
import sys
import tempfile
from collections.abc import Iterable, Sequence
from hashlib import sha256
from pathlib import Path

LIBRARY = "libwalzhik.so"
PROGRAMS = ("sheet",)
VERSION_PARTS = ("WALZHIK_VERSION_MAJOR", "WALZHIK_VERSION_MINOR", "WALZHIK_VERSION_PATCH")
COMMENT = re.compile(r"/\*.*?\*/", re.DOTALL)
INCLUDED = re.compile(r'^#include "([^"]+)"', re.MULTILINE)
SHARED_MODE = 0o755
DEFINITION = re.compile(r"^#define\s+(\w+)\s+(?:UINT32_C\()?(\d+)\)?\s*$", re.MULTILINE)
CONDITION = re.compile(
    r"^#(?:ifdef __cplusplus|ifndef WALZHIK_PROVED_CALLS)\n.*?^#endif[^\n]*\n", re.MULTILINE | re.DOTALL
)


def declarations(header: str) -> str:
    """The types and functions that a header declares, as cffi reads them.

    Comments, the lines that begin with #, what only C++ sees and the functions around the proved calls are taken off;
    nothing else is.

    Examples
    --------
    >>> declarations("#include <stddef.h>\\n/* adds */\\nint add(int a, int b);\\n")
    'int add(int a, int b);'
    """
    plain = CONDITION.sub("", COMMENT.sub("", header))
    kept = [line for line in plain.splitlines() if line.strip() and not line.startswith("#")]
    return "\n".join(kept)


def version(header: str) -> str:
    """The version that a header states, which is that of the libraries, the command and the packages.

    Examples
    --------
    >>> parts = zip(VERSION_PARTS, (2, 0, 1))
    >>> version("".join(f"#define {name} {number}\\n" for name, number in parts))
    '2.0.1'
    """
    stated = constants(header)
    return ".".join(str(stated[name]) for name in VERSION_PARTS)


def constants(header: str) -> dict[str, int]:
    """The whole numbers that a header defines by name.

    Examples
    --------
    >>> constants("#define CELLS 5184\\n#define MOST UINT32_C(7)\\n#define GUARD_H\\n")
    {'CELLS': 5184, 'MOST': 7}
    """
    return {name: int(number) for name, number in DEFINITION.findall(COMMENT.sub("", header))}


def headers(folder: Path) -> list[Path]:
    """The headers in a folder, each one after those that it includes."""
    left = sorted(folder.glob("*.h"))
    ordered: list[Path] = []
    while left:
        waiting = {path.name for path in left}
        ready = [path for path in left if not waiting & set(INCLUDED.findall(path.read_text(encoding="ascii")))]
        if not ready:
            raise ValueError(f"headers that include each other: {', '.join(sorted(waiting))}")
        ordered += ready
        left = [path for path in left if path not in ready]
    return ordered


def declared_module(text: str) -> str:
    """The name of the module that keeps declarations, by their text: other declarations have another one."""
    return f"_declared_{sha256(text.encode('ascii')).hexdigest()[:16]}"


def declare(folder: Path, into: Path) -> None:
    """Keep the declarations of the headers in a folder as cffi has read them, so that a start parses no C."""
    import cffi
    from cffi.recompiler import make_py_source

    text = "\n".join(declarations(header.read_text(encoding="ascii")) for header in headers(folder))
    read = cffi.FFI()
    read.cdef(text)
    make_py_source(read, declared_module(text), str(into / f"{declared_module(text)}.py"))


def archives(root: Path) -> list[Path]:
    """The archives of a checkout that the headers in include/ name."""
    return [root / "target" / "staticlib" / f"lib{header.stem}.a" for header in headers(root / "include")]


def link(libraries: Sequence[Path], into: Path, soname: str = "") -> None:
    """Link archives to one shared object, which appears whole or not at all; programs look for it by its soname, if it has one.

    Raises
    ------
    OSError
        If there is no C compiler, or the folder can't be written.
    subprocess.CalledProcessError
        If the linker fails; it has then said why on standard error.
    """
    into.parent.mkdir(parents=True, exist_ok=True)
    handle, made = tempfile.mkstemp(prefix=f".{into.name}.", dir=into.parent)
    os.close(handle)
    try:
        whole = ["-Wl,--whole-archive", *map(str, libraries), "-Wl,--no-whole-archive"]
        named = [f"-Wl,-soname,{soname}"] if soname else []
        subprocess.run(["cc", "-shared", "-o", made, *whole, *named, "-Wl,-z,now", "-Wl,--no-undefined"], check=True)
        os.chmod(made, SHARED_MODE)
        os.replace(made, into)
    except BaseException:
        os.unlink(made)
        raise


def is_stale(library: Path, sources: Iterable[Path]) -> bool:
    """Whether the shared object is missing, or older than an archive."""
    return not library.exists() or any(source.stat().st_mtime_ns > library.stat().st_mtime_ns for source in sources)


def main(arguments: Sequence[str]) -> int:
    """Link the archives of the checkout that is named, if its shared object is missing or older than they are."""
    root = Path(arguments[0])
    library = root / "target" / "lib" / LIBRARY
    try:
        if is_stale(library, archives(root)):
            link(archives(root), library)
            declare(root / "include", library.parent)
    except (OSError, subprocess.CalledProcessError) as error:
        print(f"The shared object {library} can't be made: {error}", file=sys.stderr)
        return 2
    return 0


if __name__ == "__main__":
    sys.exit(main(sys.argv[1:]))
