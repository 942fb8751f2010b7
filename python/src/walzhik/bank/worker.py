"""A worker of this machine: a process of its own that is sent a task at a time and sends back what it came to. It ends
when nobody is left to send it anything.
"""

from __future__ import annotations

import gc
import pickle
import signal
import sys
from importlib import import_module
from multiprocessing.connection import Connection

from .._loading import loading
from .options import version
from .outputs import Halt
from .task import Reply, WrongCopy, run

NEW_OBJECTS = 20_000  # after which the garbage collector looks for circles: a file leaves none, and holds fewer


def load() -> None:
    """Load what a task needs, so that no file's seconds are those of loading it, and let the garbage collector leave that
    alone from now on."""
    with loading():
        import_module("scipy.optimize")
        version()
    gc.set_threshold(NEW_OBJECTS)


def main(descriptor: int) -> None:
    """Do tasks from a connection until it is closed."""
    signal.signal(signal.SIGINT, signal.SIG_IGN)  # whoever sends the tasks says when to end
    load()
    connection = Connection(descriptor)
    while True:
        try:
            task = pickle.loads(connection.recv_bytes())
        except (EOFError, ConnectionResetError):
            return
        try:
            reply: Reply | Exception = run(task)
        except (Halt, WrongCopy) as error:
            reply = error
        try:
            connection.send_bytes(pickle.dumps(reply))
        except (BrokenPipeError, ConnectionResetError):
            return


if __name__ == "__main__":
    main(int(sys.argv[1]))
