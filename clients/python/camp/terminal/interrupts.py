"""Ctrl-C while a command is at work: the first one is noted, so that no answer is lost; the second one is raised."""

from __future__ import annotations

import contextlib
import os
import signal
import threading
from types import FrameType
from typing import Callable, ContextManager, Iterator, Optional

WORDS = b"\nCtrl-C again ends the conversation.\n"
_count = 0


def install() -> None:
    """Notes Ctrl-C from now on, but in blocks of `raised`."""
    signal.signal(signal.SIGINT, _note)


def take_noted() -> bool:
    """Whether there was a Ctrl-C since the last time that this was asked."""
    global _count
    was_noted, _count = _count > 0, 0
    return was_noted


def raised() -> ContextManager[None]:
    """Raises KeyboardInterrupt at once, for the time in which a line is typed."""
    return _handled(signal.default_int_handler)


def noted() -> ContextManager[None]:
    """Notes Ctrl-C, for the time in which an answer is awaited."""
    return _handled(_note)


@contextlib.contextmanager
def _handled(handler: Callable[[int, Optional[FrameType]], None]) -> Iterator[None]:
    """Calls a handler at Ctrl-C; in a thread, which gets no signals, nothing is changed."""
    if threading.current_thread() is not threading.main_thread():
        yield
        return
    before = signal.signal(signal.SIGINT, handler)
    try:
        yield
    finally:
        signal.signal(signal.SIGINT, before)


def _note(signal_number: int, frame: Optional[FrameType]) -> None:
    global _count
    _count += 1
    if _count > 1:
        raise KeyboardInterrupt
    os.write(2, WORDS)
