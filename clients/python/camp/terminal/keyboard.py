"""Lines from a person, with history and completion where the readline module is there, or from a pipe."""

from __future__ import annotations

import os
import sys
from typing import Callable, List, Optional, Protocol

from . import interrupts

try:
    import readline
except ImportError:  # a Python built without it
    readline = None  # type: ignore

# Lines of history that are kept.
MOST_LINES = 2000
Completer = Callable[[str, str], List[str]]


class EndOfInput(Exception):
    """There are no more lines; at a terminal, Ctrl-D on an empty line."""


class Interrupted(Exception):
    """Ctrl-C; `had_text` says whether something was typed in the line."""

    def __init__(self, had_text: bool) -> None:
        super().__init__()
        self.had_text = had_text


class Lines(Protocol):
    """Where lines come from."""

    def read(self, prompt: str) -> bytes:
        """The next line, without its end. Raises `EndOfInput` or `Interrupted` where there is none."""

    def close(self) -> None:
        """Keeps what is to be kept of the lines."""


class Pipe:
    """Standard input that is no terminal: no prompts, no questions."""

    def read(self, prompt: str) -> bytes:
        with interrupts.raised():
            line = sys.stdin.buffer.readline()
        if not line:
            raise EndOfInput
        return line[:-1] if line.endswith(b"\n") else line

    def close(self) -> None:
        pass


class Keyboard:
    """A terminal. `complete` gives the words that may stand where the cursor is, for the text before it and its last word."""

    def __init__(self, complete: Completer) -> None:
        reconfigure = getattr(sys.stdin, "reconfigure", None)
        if reconfigure:
            reconfigure(errors="surrogateescape")
        self._complete = complete
        self._found: List[str] = []
        self._history = history_file()
        if readline:
            self._prepare()

    def read(self, prompt: str) -> bytes:
        try:
            with interrupts.raised():
                text = input(prompt)
        except EOFError:
            print()
            raise EndOfInput from None
        except KeyboardInterrupt:
            print()
            raise Interrupted(bool(readline and readline.get_line_buffer())) from None
        # Lines are UTF-8, whatever the terminal has; what it can't decode stays the bytes that were typed.
        return text.encode("utf-8", "surrogateescape")

    def close(self) -> None:
        """Writes the history. Where that can't be written, nothing is kept."""
        if readline and self._history:
            try:
                os.makedirs(os.path.dirname(self._history), mode=0o700, exist_ok=True)
                readline.write_history_file(self._history)
            except OSError:
                pass

    def _prepare(self) -> None:
        # Pasted lines are taken one by one, as typed ones.
        readline.parse_and_bind("set enable-bracketed-paste off")
        readline.parse_and_bind("tab: complete")
        readline.set_completer_delims(" ")
        readline.set_completer(self._next_match)
        readline.set_history_length(MOST_LINES)
        if self._history:
            try:
                readline.read_history_file(self._history)
            except OSError:
                pass

    def _next_match(self, word: str, state: int) -> Optional[str]:
        """What readline calls with 0, 1, 2 and so on until there is no more."""
        if state == 0:
            before = readline.get_line_buffer()[: readline.get_begidx()]
            try:
                self._found = self._complete(before, word)
            except Exception:  # what has ended says so when a line is taken
                self._found = []
        return self._found[state] if state < len(self._found) else None


def history_file() -> Optional[str]:
    """The file of the history, below XDG_STATE_HOME or ~/.local/state; None where there is no such folder to be had."""
    state = os.environ.get("XDG_STATE_HOME") or os.path.expanduser("~/.local/state")
    return os.path.join(state, "camp", "history") if os.path.isabs(state) else None
