"""The program. A command server runs the command if there is one; otherwise this process does, and imports what it needs only then."""

from __future__ import annotations

import _signal

_signal.signal(_signal.SIGINT, _signal.SIG_DFL)  # Until `main` begins Ctrl-C ends this without words: nothing is done yet.

import os
import sys
import time

from .client import ask_server

# A command that has loaded a repository and took this many seconds of processor time starts a server.
SLOW = 0.6


def main(words: list[str] | None = None) -> int:
    """Runs a command, and returns its exit status."""
    words = sys.argv[1:] if words is None else words
    status = ask_server(words)
    if status is None:
        from .command_line import run
        status = run(words)
        copy = sys.modules.get("campvc.copy")
        is_wanted = os.environ.get("CAMPVC_SERVER", str(int(time.process_time() > SLOW))) == "1"
        if copy and copy.LOADED and is_wanted:
            from .server import leave
            leave()
    return status


if __name__ == "__main__":
    sys.exit(main())
