"""Who recorded a patch, when and why, as the text of a note; and names made of messages."""

from __future__ import annotations

import hashlib
import re
from typing import NamedTuple, Sequence

from .changes import Change


class Note(NamedTuple):
    """The author as `NAME <ADDRESS>`, the date as ISO 8601, and the message."""
    author: str
    date: str
    message: str

    def text(self) -> bytes:
        """The text that `read_note` reads."""
        return "author {}\ndate {}\n\n{}".format(self.author, self.date, self.message).encode("utf-8", "surrogateescape")

    @property
    def title(self) -> str:
        """The first line of the message."""
        return self.message.split("\n")[0]

    @property
    def who(self) -> str:
        """The author without the address."""
        return self.author.rpartition(" <")[0] or self.author


def read_note(note: bytes) -> Note:
    """The note of a text; fields that it lacks are empty."""
    head, _, message = note.decode("utf-8", "replace").partition("\n\n")
    fields = dict(line.partition(" ")[::2] for line in head.split("\n"))
    return Note(fields.get("author", ""), fields.get("date", ""), message)


def slug(words: str, most: int) -> str:
    """A name made of words: small letters, digits and `-`."""
    return re.sub(r"[^a-z0-9]+", "-", words.lower()).strip("-")[:most].strip("-") or "patch"


def patch_name(note: Note, changes: Sequence[Change], who: str) -> str:
    """A name for a patch: the beginning of its message, and six digits of a digest of all that is given; `who` is a word that nobody
    else gives."""
    digest = hashlib.sha256(note.text() + who.encode() + b"".join(change.text() for change in changes)).hexdigest()
    return "{}-{}".format(slug(note.title, 26), digest[:6])
