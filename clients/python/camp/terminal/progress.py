"""How long something takes, on standard error: at a terminal a line that is written anew each second, elsewhere a line for each
second, if that is wanted."""

from __future__ import annotations

import sys
import time

# Seconds between two writings.
PAUSE = 1.0


class Progress:
    """At a terminal one line, which is gone when the work is done. Work that takes less than a second shows none."""

    # Whether it is shown where standard error is no terminal, too.
    is_wanted = False

    def __init__(self) -> None:
        self._is_terminal = sys.stderr.isatty()
        self._started = self._last = time.monotonic()
        self._width = 0

    def begin(self) -> None:
        """Counts from now."""
        self._started = self._last = time.monotonic()

    def tick(self, of: str = "") -> None:
        """Shows how long it takes, and what is done, if a second has passed since the last time."""
        now = time.monotonic()
        if now - self._last < PAUSE:
            return
        self._last, text = now, "working: {:.0f} s{}".format(now - self._started, of)
        if self._is_terminal:
            self._write(text.ljust(self._width))
            self._width = len(text)
        elif Progress.is_wanted:
            print(text, file=sys.stderr, flush=True)

    def end(self) -> None:
        """Takes the line away."""
        if self._width:
            self._write(" " * self._width + "\r")
            self._width = 0

    def _write(self, text: str) -> None:
        sys.stderr.write("\r" + text)
        sys.stderr.flush()
