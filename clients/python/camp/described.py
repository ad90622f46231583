"""Changes, and differences of files, as lines for people."""

from __future__ import annotations

import difflib
import enum
import re
from typing import Iterator, List, Optional, Sequence, Tuple

from .changes import Add, Change, Edit, Remove
from .coding import EXECUTABLE, LINK, MODE, NO_END, PIECES, PLAIN, SUBMODULE, File, Files, file_name
from .worktree import text


class Kind(enum.Enum):
    """What a line says: which file follows, what changes and where, a line that goes, one that comes, or something else."""
    FILE = "file"
    PLACE = "place"
    OLD = "old"
    NEW = "new"
    OTHER = "other"


Line = Tuple[bytes, Kind]
KINDS = {PLAIN: "file", EXECUTABLE: "executable file", LINK: "symbolic link", SUBMODULE: "submodule"}


def change_lines(changes: List[Change]) -> Iterator[Line]:
    """The lines of changes, each with its kind. What is said of a mode or an end is said in words, unless the file goes."""
    gone = {change.path for change in changes if isinstance(change, Remove)}
    for change in changes:
        if change.path[:3] in (MODE, NO_END, PIECES) and change.path[3:] in gone:
            continue
        name = file_name(change.path)
        shown, kind = text(name), change.path[:3]
        if kind in (MODE, NO_END, PIECES, "%e/"):
            yield from _attribute_lines(change, shown, kind)
        elif isinstance(change, Edit):
            yield "{} line {}".format(shown, change.line).encode(), Kind.PLACE
            yield from ((b"-" + line, Kind.OLD) for line in change.old)
            yield from ((b"+" + line, Kind.NEW) for line in change.new)
        else:
            yield "{}: {} file".format(shown, "new" if isinstance(change, Add) else "removed").encode(), Kind.PLACE


def _attribute_lines(change: Change, shown: str, kind: str) -> Iterator[Line]:
    if kind == NO_END and not isinstance(change, Edit):
        yield "{}: the last line ends {} a line feed".format(shown, "without" if isinstance(change, Add) else "with").encode(), Kind.PLACE
    if kind == MODE and isinstance(change, Edit):
        modes = [KINDS.get(b"".join(side).decode("ascii", "replace"), "file") for side in (change.old, change.new)]
        if modes[0] != modes[1]:
            yield "{}: {} becomes {}".format(shown, *modes).encode(), Kind.PLACE


def unified(before: Files, after: Files, paths: Sequence[bytes]) -> Iterator[Line]:
    """How these files differ, as `patch -p1` reads it."""
    for path in paths:
        old, new = before.get(path), after.get(path)
        yield "diff {}".format(text(path)).encode(), Kind.FILE
        if old and new:
            if old.mode != new.mode:
                yield "{} becomes {}".format(KINDS[old.mode], KINDS[new.mode]).encode(), Kind.OTHER
        elif old or new:
            yield "{} {}".format("new" if new else "removed", KINDS[(new or old).mode]).encode(), Kind.OTHER
        if any(b"\0" in file.content for file in (old, new) if file):
            yield b"binary files differ", Kind.OTHER
            continue
        names = [_quoted(b"a/" + path) if old else b"/dev/null", _quoted(b"b/" + path) if new else b"/dev/null"]
        yield from _compare(_lines(old), _lines(new), names)


def _quoted(path: bytes) -> bytes:
    """A path as `patch` reads it: in quotes where it has a quote, a backslash or a control character."""
    if not re.search(rb'[\0-\x1f"\\\x7f]', path):
        return path
    return b'"' + re.sub(rb'[\0-\x1f"\\\x7f]', lambda found: b"\\%03o" % ord(found[0]), path) + b'"'


def _compare(old: List[bytes], new: List[bytes], names: List[bytes]) -> Iterator[Line]:
    kinds = {b"+": Kind.NEW, b"-": Kind.OLD, b"@": Kind.PLACE}
    for number, line in enumerate(difflib.diff_bytes(difflib.unified_diff, old, new, *names, lineterm=b"\n")):
        bare = line[:-1] if line.endswith(b"\n") else line
        yield bare, Kind.FILE if number < 2 else kinds.get(bare[:1], Kind.OTHER)
        if bare == line:
            yield b"\\ No newline at end of file", Kind.OTHER


def _lines(file: Optional[File]) -> List[bytes]:
    return [it for it in re.split(rb"(?<=\n)", file.content) if it] if file else []
