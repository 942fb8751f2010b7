"""What the tests share: where the rational program is, one profile of hypothesis whose cases are the
same in every run, and a way to run the command within the test's own process.
"""

from __future__ import annotations

import io
import os
import signal
import sys
from pathlib import Path

import pytest
from hypothesis import settings
from running import ROOT, Ended, Run

sys.path[:0] = [str(ROOT / "tests" / "reference"), str(ROOT / "tests")]
os.environ.setdefault("WALZHIK_ROOT", str(ROOT))
# As the command does for its own process, before a test loads the numerical libraries: so workers can be copies of it.
os.environ.update(dict.fromkeys(("OMP_NUM_THREADS", "OPENBLAS_NUM_THREADS", "MKL_NUM_THREADS"), "1"))

# Where the tests are started in the background, interrupts are ignored, and so they would be by all that the tests start:
# with a handler here, what is started has the default.
if signal.getsignal(signal.SIGINT) == signal.SIG_IGN:
    signal.signal(signal.SIGINT, signal.default_int_handler)

settings.register_profile("gate", derandomize=True, deadline=None, database=None)
settings.load_profile("gate")


@pytest.fixture(scope="session")
def rings_program(tmp_path_factory: pytest.TempPathFactory) -> Path:
    """The proved program `rings`, built once for all processes of this run."""
    from building import built_once, proved_programs

    return proved_programs(built_once(tmp_path_factory.getbasetemp())) / "rings"


@pytest.fixture
def run(monkeypatch: pytest.MonkeyPatch) -> Run:
    """Run the command from the checkout's root: its arguments, then what it reads from standard input."""
    from walzhik import cli

    def command(*arguments: object, stdin: bytes = b"") -> Ended:
        out, err = (io.TextIOWrapper(io.BytesIO(), encoding="utf-8", write_through=True) for _ in (0, 1))
        with monkeypatch.context() as patch:
            patch.chdir(ROOT)
            patch.setattr(sys, "stdin", io.TextIOWrapper(io.BytesIO(stdin)))
            patch.setattr(sys, "stdout", out)
            patch.setattr(sys, "stderr", err)
            with pytest.raises(SystemExit) as ended:
                cli.main([str(each) for each in arguments])
        said = [stream.buffer.getvalue().decode("utf-8") for stream in (out, err)]  # type: ignore[attr-defined]
        assert isinstance(ended.value.code, int)
        return Ended(ended.value.code, *said)

    return command
