"""``python3 -m walzhik`` is the command."""

import os
import signal

# Until all modules are there Ctrl-C ends the process without a word. The launcher starts Python with it ignored, and
# says so, because Python itself would answer it with a traceback before this line is reached.
if os.environ.pop("WALZHIK_INTERRUPT", "") or signal.getsignal(signal.SIGINT) == signal.default_int_handler:
    signal.signal(signal.SIGINT, signal.SIG_DFL)

from .cli import main

main()
