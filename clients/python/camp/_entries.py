"""The calls in the texts of a log's entries, each after its note."""

from __future__ import annotations

import re
from typing import List, Tuple

CALLS = (b"branch", b"record", b"pull", b"obliterate")
NOTE = b"#note"
# What ends the body of an edit, and of a group.
ENDS = {b"edit": re.compile(rb"\nend\n"), b"group": re.compile(rb"\n[ \t]*done[ \t]*\n")}


def noted(call: bytes, note: bytes) -> bytes:
    """A call as an entry has it, after its note."""
    return b"".join(NOTE + b" " * bool(line) + line + b"\n" for line in note.split(b"\n")) + call if note else call


def parted(text: bytes) -> Tuple[bytes, bytes]:
    """The call of a text, and the note before it."""
    notes: List[bytes] = []
    while text.startswith(b"#"):
        line, _, text = text.partition(b"\n")
        rest = line[len(NOTE):] if line.startswith(NOTE) else line
        notes.append(rest[1:] if rest.startswith(b" ") else rest)
    return text, b"\n".join(notes)


def calls_of(body: bytes) -> List[Tuple[bytes, bytes]]:
    """The calls of the lines of an entry, each with its note: a record of an edit goes to `end`, one of a group to `done`."""
    calls: List[Tuple[bytes, bytes]] = []
    notes: List[bytes] = []
    start = 0
    while start < len(body) and (end := body.find(b"\n", start) + 1):
        line = body[start:end]
        if line.startswith(NOTE):
            text = line[len(NOTE):-1]
            notes.append(text[1:] if text.startswith(b" ") else text)
        else:
            words = line.split(None, 4)
            last = ENDS.get(words[3] if words[:1] == [b"record"] and len(words) > 3 else b"")
            if last:
                found = last.search(body, end - 1)
                end = found.end() if found else len(body)
            calls.append((body[start:end], b"\n".join(notes)))
            notes = []
        start = end
    return calls


def canonical(call: bytes) -> bytes:
    """A call with single spaces, plain line numbers, and without the comments of a group: what a log has of it."""
    found, is_body = [], False
    for line in call.split(b"\n")[:-1]:
        words = [it for it in re.split(rb"[ \t]+", line) if it]
        if is_body:
            found.append(line)
            is_body = line != b"end"
        elif words and not words[0].startswith(b"#"):
            # Where the line number of an edit stands.
            at = 2 if words[0] == b"edit" else 5 if words[0] == b"record" and words[3:4] == [b"edit"] else None
            if at and words[at:]:
                words[at] = words[at].lstrip(b"0") or b"0"
            found.append(b" ".join(words))
            is_body = at is not None
    return b"".join(line + b"\n" for line in found)
