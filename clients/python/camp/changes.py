"""The changes of a patch, and the words and lines that they are written with."""

from __future__ import annotations

import re
from typing import Iterable, List, Optional, Sequence, Tuple, Union

Text = Union[str, bytes]


def to_bytes(text: Text) -> bytes:
    """The bytes of a text. A string is encoded as UTF-8; its surrogate escapes are the bytes that they stand for."""
    if isinstance(text, str):
        return text.encode("utf-8", "surrogateescape")
    if isinstance(text, (bytes, bytearray, memoryview)):
        return bytes(text)
    raise TypeError("a string or bytes are wanted, not {!r}".format(text))


def split_lines(text: Text) -> List[bytes]:
    """The lines of a text, cut at line feeds. Whether the last line ends with one makes no difference."""
    lines = to_bytes(text).split(b"\n")
    return lines if lines[-1] else lines[:-1]


def join_lines(lines: Iterable[bytes]) -> str:
    """The text of lines, each with a line feed. Bytes that are no UTF-8 become surrogate escapes, so nothing is lost."""
    return b"".join(line + b"\n" for line in lines).decode("utf-8", "surrogateescape")


def list_of(what: str, values: Iterable[Text]) -> List[Text]:
    """The values of a list. A single string or bytes are refused: their letters would be taken one by one."""
    if isinstance(values, (str, bytes, bytearray)):
        raise TypeError("{}: a list is wanted, not a single string; write [{!r}]".format(what, values))
    return list(values)


def word(text: Text) -> bytes:
    """A word of a command. Whether it is a name or a path is left to the library, which answers a fault."""
    found = to_bytes(text)
    if not found or re.search(rb"[ \t\n]", found):
        raise ValueError("not one word: {!r}".format(text))
    return found


def command(*words: Text) -> bytes:
    """A command of one line."""
    return b" ".join(map(word, words)) + b"\n"


def _lines(what: str, lines: Iterable[Text]) -> Tuple[bytes, ...]:
    found = tuple(to_bytes(line) for line in list_of(what, lines))
    for line in found:
        if b"\n" in line:
            raise ValueError("{}: more than one line: {!r}".format(what, line))
    return found


class _Value:
    """A value of some parts. It does not change, and equals those of its class with equal parts."""

    __slots__ = ()
    __match_args__: Tuple[str, ...] = ()

    def _parts(self) -> Tuple[object, ...]:
        return tuple(getattr(self, name) for name in self.__match_args__)

    def __eq__(self, other: object) -> bool:
        return self._parts() == other._parts() if isinstance(other, _Value) and type(other) is type(self) else NotImplemented

    def __hash__(self) -> int:
        return hash((type(self).__name__, *self._parts()))

    def __repr__(self) -> str:
        named = ("{}={!r}".format(name, value) for name, value in zip(self.__match_args__, self._parts()))
        return "{}({})".format(type(self).__name__, ", ".join(named))

    def __reduce__(self) -> Tuple[object, ...]:
        return type(self), self._parts()

    def __setattr__(self, name: str, value: object) -> None:
        raise AttributeError("{} does not change".format(type(self).__name__))

    def __delattr__(self, name: str) -> None:
        raise AttributeError("{} does not change".format(type(self).__name__))


class Add(_Value):
    """Adds a file without lines."""
    __slots__ = __match_args__ = ("path",)
    path: str

    def __init__(self, path: str) -> None:
        object.__setattr__(self, "path", path)

    def text(self) -> bytes:
        """The change as a command has it."""
        return b"add " + word(self.path) + b"\n"


class Remove(_Value):
    """Removes a file, which has to have no lines."""
    __slots__ = __match_args__ = ("path",)
    path: str

    def __init__(self, path: str) -> None:
        object.__setattr__(self, "path", path)

    def text(self) -> bytes:
        """The change as a command has it."""
        return b"remove " + word(self.path) + b"\n"


class Edit(_Value):
    """Replaces the old lines of a file, which stand from `line` on, by new ones. Lines count from 1."""
    __slots__ = __match_args__ = ("path", "line", "old", "new")
    path: str
    line: int
    old: Tuple[bytes, ...]
    new: Tuple[bytes, ...]

    def __init__(self, path: str, line: int, old: Iterable[Text] = (), new: Iterable[Text] = ()) -> None:
        object.__setattr__(self, "path", path)
        object.__setattr__(self, "line", line)
        object.__setattr__(self, "old", _lines("old", old))
        object.__setattr__(self, "new", _lines("new", new))

    def text(self) -> bytes:
        """The change as a command has it."""
        body = [b"-" + line for line in self.old] + [b"+" + line for line in self.new]
        first = b"edit %s %d" % (word(self.path), self.line)
        return b"".join(line + b"\n" for line in [first, *body, b"end"])


Change = Union[Add, Remove, Edit]


def record_command(branch: str, name: str, changes: Sequence[Change]) -> bytes:
    """The command that records changes. How many there may be is left to the library."""
    if isinstance(changes, (Add, Remove, Edit)):
        raise TypeError("changes: a list of changes is wanted, not a single one; write [{!r}]".format(changes))
    texts = [change.text() for change in changes]
    body = texts[0] if len(texts) == 1 else b"group\n" + b"".join(texts) + b"done\n"
    return b"record %s %s %s" % (word(branch), word(name), body)


def apply(lines: Optional[List[bytes]], change: Change) -> Optional[List[bytes]]:
    """The lines of a file after a change of it that applies there; None where there is no file."""
    if not isinstance(change, Edit):
        return [] if isinstance(change, Add) else None
    at, old = change.line - 1, lines or []
    return old[:at] + list(change.new) + old[at + len(change.old):]
