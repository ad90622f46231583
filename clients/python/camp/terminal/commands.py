"""The words of commands: which there are, what kinds of words follow each, and which one a wrong word may have meant."""

from __future__ import annotations

import difflib
import re
from typing import BinaryIO, Dict, Iterable, List, NamedTuple, Optional, Sequence

# The words of each command of the language and of each question, by kind. `NAME ..` are names of patches to the end.
SHAPES: Dict[str, Sequence[str]] = {
    "branch": ("NEW", "FROM"),
    "record": ("BRANCH", "NEW", "CHANGE", "PATH", "LINE"),
    "pull": ("FROM", "TO", "MISSING .."),
    "obliterate": ("BRANCH", "NAME .."),
    "tree": ("BRANCH",),
    "conflicts": ("BRANCH",),
    "names": ("BRANCH",),
    "branches": (),
    "file": ("BRANCH", "PATH"),
    "needs": ("BRANCH", "NAME .."),
    "held": ("BRANCH", "NAME .."),
    "missing": ("FROM", "TO"),
    "along": ("FROM", "TO", "MISSING .."),
    "show": ("BRANCH", "NAME"),
    "annotate": ("BRANCH", "PATH"),
    "open": ("BRANCH",),
    "side": ("BRANCH", "NAME"),
    "marks": ("BRANCH", "PATH"),
    "graph": ("BRANCH", "NAME .."),
    "whatif": ("COMMAND",),
    "why": (),
    "history": (),
    "keep": (),
    "help": ("TOPIC",),
}
# The words of the conversation at a terminal alone.
OWN: Dict[str, Sequence[str]] = {"save": ("FILE",), "read": ("FILE",), "picture": ("FILE", "BRANCH", "NAME .."), "quit": (), "exit": (), "?": ("TOPIC",)}
CHANGES = ("add", "remove", "edit", "group")
ENDINGS = ("end", "done", "cancel")
# Characters of a line that are said again in words about it.
MOST_SHOWN = 30
NAME = re.compile(r"[a-z0-9][a-z0-9-]{0,39}\Z")


class Call(NamedTuple):
    """A call that writes: the branch that it changes, and the one that it copies or pulls from."""
    kind: str
    branch: str
    origin: Optional[str]


def words_of(line: bytes) -> List[str]:
    """The words of a line, cut as the language cuts them: at spaces and tabs alone."""
    return [it for it in re.split(r"[ \t]+", line.decode("utf-8", "surrogateescape")) if it]


def call_of(words: Sequence[str]) -> Optional[Call]:
    """The call that a line is; None for a question, or what is too short to be a call."""
    if len(words) < 3:
        return None
    kind, first, second = words[:3]
    if kind in ("record", "obliterate"):
        return Call(kind, first, None)
    if kind == "branch":
        return Call(kind, first, second)
    return Call(kind, second, first) if kind == "pull" else None


def begins_body(words: Sequence[str]) -> Optional[str]:
    """`edit` or `group` where a line looks like the first one of such a record, even if a word of it is wrong."""
    rest = words[1:] if words[:1] == ["whatif"] else words
    if len(rest) >= 4 and rest[3] in ("edit", "group"):
        return rest[3]
    return None


def next_command(source: BinaryIO) -> bytes:
    """The lines of the next command: those of an edit go to `end`, those of a group to `done`."""
    text = source.readline()
    text += b"\n" if text and not text.endswith(b"\n") else b""
    end = {"edit": [b"end"], "group": [b"done"]}.get(begins_body(words_of(text.rstrip(b"\n"))) or "")
    while end:
        line = source.readline()
        text += line if line.endswith(b"\n") else line + b"\n" * bool(line)
        end = None if not line or line.split() == end else end
    return text


def is_command(word: str) -> bool:
    return word in SHAPES or word in OWN


def is_name(word: str) -> bool:
    """Whether a branch or a patch may have this name."""
    return bool(NAME.match(word))


def wrong_name(words: Iterable[str]) -> str:
    """What is said of the first of some words that is no name; nothing where all are."""
    form = "{} is no name: a name has 1 to 40 of a to z, 0 to 9 and -, and begins with no -"
    return next((form.format(it) for it in words if not is_name(it)), "")


def nearest(word: str, choices: Iterable[str]) -> Optional[str]:
    """The choice that the word may have meant."""
    found = difflib.get_close_matches(word.lower(), list(choices), 1, 0.7)
    return found[0] if found else None


def no_sign(text: str) -> str:
    """What is said of a line of an edit that has no sign."""
    shown = text if len(text) <= MOST_SHOWN else "LINE"
    return "this line has no sign: write +{0} to put it in, -{0} to take it away, or end".format(shown)


def no_command(word: str) -> str:
    """What is said of a word that is no command."""
    found = nearest(word, [*SHAPES, *(it for it in OWN if it != "?")])
    if word in ENDINGS or word in CHANGES:
        return "{} stands only in a record: help {} tells more".format(word, word)
    return "no command {}: {}".format(word, "did you mean {}?".format(found) if found else "help lists the commands")
