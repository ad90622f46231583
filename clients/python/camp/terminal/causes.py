"""Why a command was refused or has a fault, in the words that `why` answers."""

from __future__ import annotations

import re
from typing import Dict, List, NamedTuple, Tuple

NONE_YET = "Nothing was refused yet, and no line was wrong."
# The lines of `why` that say what a word of the command's usage is: "FROM is work, and TO is main."
BINDING = re.compile(r"(BRANCH|FROM|TO|NEW) is ([a-z0-9-]+)(?:, and (TO) is ([a-z0-9-]+))?\.\Z")
# A line of `why` that is wrapped, and goes on in the next one.
LONG = 60


class Cause(NamedTuple):
    """The first line of an answer that is a fault or a refusal, and what `why` says of it, without that line."""
    answer: str
    lines: List[str]

    @property
    def is_fault(self) -> bool:
        return self.answer.startswith("fault ")

    @property
    def kind(self) -> str:
        """What kind of fault it is, as `bad name`."""
        return self.answer.split(" ", 2)[2] if self.is_fault else ""

    def in_words(self) -> List[str]:
        """The cause: first what the refusal says, or what is wrong in the line, then what is known and what to write."""
        lines = [it for it in self.lines if not it.startswith(">")]
        meanings: Dict[str, str] = {}
        if not self.is_fault and lines:
            lines[0], meanings = self._headline(lines[0])
        for line in lines:
            found = BINDING.match(line)
            if found:
                meanings.update({found[at]: found[at + 1] for at in (1, 3) if found[at]})
        told = [it for it in lines if not BINDING.match(it)]
        return joined([line if line[:1] in "=+-" else filled(line, meanings) for line in told])

    def _headline(self, line: str) -> Tuple[str, Dict[str, str]]:
        """The first line of a refusal with its own names, and what the words of its usage mean."""
        usage, _, text = line.partition(": ")
        words = self.answer.split(" ")
        return "{}: {}".format(" ".join(words[:2]), text), dict(zip(usage.split(" ")[2:], words[2:]))


def filled(line: str, meanings: Dict[str, str]) -> str:
    """A line with the names in place of the words that stand for them."""
    return re.sub(r"\b[A-Z]{2,}\b", lambda it: meanings.get(it[0], it[0]), line)


def joined(lines: List[str]) -> List[str]:
    """The lines with those that were wrapped put together again."""
    found: List[str] = []
    for line in lines:
        if found and len(found[-1]) > LONG and found[-1][-1:] not in ".:" and line[:1].islower():
            found[-1] += " " + line
        else:
            found.append(line)
    return found


def split_cause(response: bytes) -> Tuple[bytes, List[str]]:
    """The answer to one command and the lines of `why`, of the response to both. An answer that is a fault or a refusal is one
    line; after any other one `why` says that nothing was wrong."""
    first, _, rest = response.partition(b"\n")
    if first.startswith((b"fault ", b"refused ")):
        lines = [it.decode("utf-8", "surrogateescape") for it in rest.split(b"\n")[:-1]]
        return first + b"\n", lines[2:] or [first.decode("utf-8", "replace")]
    at = response.rfind(b"why ")
    while at > 0 and response[at:].split(b"\n")[0] != b"why %d" % (response.count(b"\n", at) - 1):
        at = response.rfind(b"why ", 0, at)
    return response[:at], []
