"""What a person sees: answers with control bytes escaped, words wrapped to the width of the terminal, and colour."""

from __future__ import annotations

import os
import shutil
import sys
import textwrap
import unicodedata
from typing import Iterable, Mapping, TextIO

from . import interrupts

PLAIN, ALARM, GOOD, HEAD = "", "31", "32", "1"
# A narrower terminal breaks lines itself.
LEAST_WIDTH = 20
# Bidirectional controls, which can show a line in another order than it has.
TURNING = {"LRE", "RLE", "LRO", "RLO", "PDF", "LRI", "RLI", "FSI", "PDI"}


class Screen:
    """Standard output. Where it is no terminal, answers are written as they are and nothing is wrapped."""

    def __init__(self, out: TextIO, environment: Mapping[str, str] = os.environ) -> None:
        self._out = out
        self.is_terminal = out.isatty()
        self._has_colour = self.is_terminal and not environment.get("NO_COLOR") and environment.get("TERM", "dumb") != "dumb"

    def show(self, text: bytes, style: str = PLAIN) -> None:
        """Shows lines of an answer."""
        if not self.is_terminal:
            self._out.flush()
            self._out.buffer.write(text)
            self._out.buffer.flush()
            return
        for line in text.split(b"\n")[:-1]:
            if interrupts.take_noted():
                self._write("the rest is not shown", PLAIN)
                break
            self._write(visible(line, self._encoding()), style)
        self._out.flush()

    def say(self, text: str, style: str = PLAIN, indent: str = "") -> None:
        """Shows a line of words, wrapped; later lines of it have the indent."""
        text = visible(text.encode(errors="surrogateescape"), self._encoding())
        width = shutil.get_terminal_size().columns - 1
        lines = [text]
        if self.is_terminal and width + 1 >= LEAST_WIDTH and len(text) > width:
            first = text[: len(text) - len(text.lstrip(" "))]
            lines = textwrap.wrap(text.lstrip(" "), width, initial_indent=first, subsequent_indent=indent or first, break_long_words=False,
                                  break_on_hyphens=False)
        for line in lines:
            self._write(line, style)
        self._out.flush()

    def say_all(self, lines: Iterable[str], style: str = PLAIN) -> None:
        for line in lines:
            self.say(line, style)

    def _encoding(self) -> str:
        return getattr(self._out, "encoding", None) or "ascii"

    def _write(self, line: str, style: str) -> None:
        has_colour = self._has_colour and style and line
        self._out.write("\x1b[{}m{}\x1b[0m\n".format(style, line) if has_colour else line + "\n")


def visible(line: bytes, encoding: str = "utf-8") -> str:
    """A line in which a terminal finds nothing but text: control characters but tabs, characters that turn the direction,
    bytes that are no UTF-8, and what the encoding can't write are escaped."""
    text = line.decode("utf-8", "backslashreplace")
    return "".join(letter if is_shown(letter) else escape_of(letter) for letter in text).encode(encoding, "backslashreplace").decode(encoding)


def is_shown(letter: str) -> bool:
    if letter == "\t" or " " <= letter <= "~":
        return True
    return unicodedata.category(letter) not in ("Cc", "Cs", "Zl", "Zp") and unicodedata.bidirectional(letter) not in TURNING


def escape_of(letter: str) -> str:
    code = ord(letter)
    return "\\x{:02x}".format(code) if code < 256 else "\\u{:04x}".format(code)


def complain(text: str) -> None:
    """Says on standard error why a command ends."""
    shown = [visible(it.encode(errors="surrogateescape")) for it in text.split("\n")]
    print("camp: {}".format("\n".join(shown)), file=sys.stderr)


def counted(count: int, what: str) -> str:
    """A number of things, in words."""
    return "1 {}".format(what) if count == 1 else "{} {}s".format(count, what)


def standard_screen() -> Screen:
    return Screen(sys.stdout)
