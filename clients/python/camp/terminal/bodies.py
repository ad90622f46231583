"""The body of an edit or of a group while it is typed: each line is checked at once, by the program itself."""

from __future__ import annotations

from typing import List

MOST_CHANGES, MOST_BYTES = 64, 4096
# Each check is a `whatif`, which changes nothing whatever is typed; its branch is one that nobody has.
EDIT = b"whatif record zz-no-branch-of-this-name-1d1f0c6e4b x edit f 1\n"
GROUP = b"whatif record zz-no-branch-of-this-name-1d1f0c6e4b x group\n"


class Body:
    """The lines of a record after its first one. A line is put in once `is_right` or the answer to `check` says that it may
    stand there."""

    def __init__(self, first: bytes, is_group: bool) -> None:
        self.first, self.is_group = first, is_group
        self.lines: List[bytes] = []
        self._changes = 0
        # Of the edit that the next line belongs to, if it is in one: the numbers of its lines.
        self._is_in_edit, self._old, self._new = not is_group, 0, 0

    @property
    def is_in_edit(self) -> bool:
        """Whether the next line belongs to an edit, which `end` ends."""
        return self._is_in_edit

    def is_skipped(self, line: bytes) -> bool:
        """Whether a line of a group is blank or a comment."""
        return not self._is_in_edit and line.strip(b" \t")[:1] in (b"", b"#")

    def is_signed(self, line: bytes) -> bool:
        """Whether a line is one of an edit's sides, and stands in one."""
        return self._is_in_edit and line[:1] in (b"+", b"-")

    def is_right(self, line: bytes) -> bool:
        """Whether a line can be seen to be right without asking."""
        if not self._is_in_edit or len(line) > MOST_BYTES + 1:
            return False
        return line[:1] == b"+" or (line[:1] == b"-" and not self._new) or (line == b"end" and self._old + self._new > 0)

    def check(self, line: bytes) -> bytes:
        """A request that has a fault exactly if the line is wrong here, and then says why."""
        if self._is_in_edit:
            before = b"+\n" if self._new else b"-\n" if self._old else b""
            return EDIT + before + line + (b"\n" if line == b"end" else b"\nend\n") + b"why\n"
        if line.strip(b" \t").startswith(b"edit"):
            line += b"\n+\nend"
        elif line.split() == [b"done"]:
            return GROUP + b"done\nwhy\n" if not self._changes else b"why\n"
        return GROUP + line + b"\ndone\nwhy\n"

    def lacks_sign(self, line: bytes) -> bool:
        """Whether what is wrong in a line of an edit is that it has no sign, and nothing else."""
        text = line.strip(b" \t")
        return self._is_in_edit and text[:1] not in (b"", b"+", b"-") and text.lower() != b"end" and len(line) <= MOST_BYTES

    def is_full(self) -> bool:
        """Whether a group has all changes that it may have."""
        return self.is_group and not self._is_in_edit and self._changes == MOST_CHANGES

    def put(self, line: bytes) -> bool:
        """Adds a line that is right. Whether the record is whole now."""
        self.lines.append(line)
        if self._is_in_edit:
            self._old += line[:1] == b"-"
            self._new += line[:1] == b"+"
            self._is_in_edit = line != b"end"
            return line == b"end" and not self.is_group
        word = line.split(None, 1)[0]
        if word == b"done":
            return True
        self._changes += 1
        self._is_in_edit, self._old, self._new = word == b"edit", 0, 0
        return False

    def text(self) -> bytes:
        """The whole record."""
        return b"".join(line + b"\n" for line in [self.first, *self.lines])
