"""Unresolved conflicts by file: the lines of their sides, and the changes that decide.

A question about a conflict is about a path of camp; a file of `camp.coding` has up to four of these."""

from __future__ import annotations

from typing import Callable, Dict, Iterable, List, Optional, Union

from .answers import Conflict, Hunk, HunkSide
from .changes import Add, Change, Edit, Remove, Text, apply, to_bytes
from .coding import File, decode, file_name
from .questions import Questions

Hunks = List[Union[bytes, Hunk]]
Unresolved = Dict[str, List[Conflict]]
# What lines of marks begin with.
START, SIDE, END = b"<<<<<<< ", b"======= ", b">>>>>>> "


def open_pairs(of: Questions, branch: str) -> List[Conflict]:
    """The unresolved conflicts. Whether there are conflicts at all is asked first, since that takes less time."""
    return of.open(branch) if of.conflicts(branch) else []


def unresolved(of: Questions, branch: str) -> Unresolved:
    """The unresolved conflicts, by the paths that both sides would change."""
    found: Unresolved = {}
    pairs = open_pairs(of, branch)
    paths = {name: {change.path for change in of.side(branch, name)} for name in dict.fromkeys(name for pair in pairs for name in pair)}
    for pair in pairs:
        left, right = paths[pair.left], paths[pair.right]
        for path in sorted(left & right or left | right):
            found.setdefault(path, []).append(pair)
    return found


def by_file(found: Unresolved) -> Dict[bytes, List[Conflict]]:
    """Unresolved conflicts by the files that they are about."""
    files: Dict[bytes, List[Conflict]] = {}
    for path, pairs in found.items():
        known = files.setdefault(file_name(path), [])
        known += [pair for pair in pairs if pair not in known]
    return dict(sorted(files.items()))


def hunks(of: Questions, branch: str, path: str, pairs: Iterable[Conflict]) -> Hunks:
    """The lines of a file, and hunks where unresolved sides differ; pairs are those of the path. A file that does not exist is one
    hunk of the sides that add it."""
    found = of.marks(branch, path)
    if found is not None:
        return list(found)
    sides = []
    for name in dict.fromkeys(name for pair in pairs for name in pair):
        lines: Optional[List[bytes]] = None
        for change in of.side(branch, name):
            lines = apply(lines, change) if change.path == path else lines
        if lines is not None:
            sides.append(HunkSide(name, lines))
    return [Hunk([], sides)]


def marked(some: Hunks, described: Callable[[str], Text], advice: Text) -> List[bytes]:
    """The lines of a file with marks round its hunks: the lines as they are now, and those of each side after a line that describes its
    patch; the last mark has the advice."""
    lines: List[bytes] = []
    for hunk in some:
        if isinstance(hunk, bytes):
            lines.append(hunk)
            continue
        lines += [START + b"as it is now", *hunk.lines]
        for side in hunk.sides:
            lines += [SIDE + to_bytes(described(side.name)), *side.lines]
        lines.append(END + to_bytes(advice))
    return lines


def first_mark(content: bytes) -> Optional[int]:
    """The number of the first line that is a mark."""
    return next((number for number, line in enumerate(content.split(b"\n"), 1) if line.startswith((START, SIDE, END))), None)


def take_side(of: Questions, branch: str, file: bytes, name: str, found: Unresolved) -> Optional[File]:
    """A file with the side of a patch wherever that has one; None where that has no file."""
    tree = {path: lines for path, lines in of.tree(branch).items() if file_name(path) == file}
    for path in [it for it in found if file_name(it) == file]:
        lines: Optional[List[bytes]] = tree.pop(path, None)
        changes = [change for change in of.side(branch, name) if change.path == path]
        if lines is None:
            for change in changes:
                lines = apply(lines, change)
        else:
            lines = _taken(hunks(of, branch, path, found[path]), name)
            lines = None if any(isinstance(change, Remove) for change in changes) else lines
        tree.update({} if lines is None else {path: lines})
    return decode(tree).get(file)


def _taken(some: Hunks, name: str) -> List[bytes]:
    lines: List[bytes] = []
    for hunk in some:
        lines += [hunk] if isinstance(hunk, bytes) else next((side.lines for side in hunk.sides if side.name == name), hunk.lines)
    return lines


def decisions(of: Questions, branch: str, paths: List[str], found: Unresolved, changes: List[Change]) -> List[Change]:
    """Changes to record beside some others, which decide for what is there wherever these leave a conflict alone: a line in place
    of itself, or one that comes and goes."""
    decided: List[Change] = []
    for path in paths:
        own = [change for change in changes if change.path == path]
        lines = of.file(branch, path)
        if lines is None:
            decided += [] if own else [Add(path), Remove(path)]
            continue
        at, some = 1, []  # type: int, List[List[Change]]
        for hunk in hunks(of, branch, path, found[path]):
            if isinstance(hunk, bytes):
                at += 1
                continue
            if not any(_meets(change, at, len(hunk.lines)) for change in own):
                some.append(_same(path, at, hunk.lines))
            at += len(hunk.lines)
        if not some and not own:
            some = [_same(path, 1, lines)]
        decided += [change for one in reversed(some) for change in one]
    return decided


def _meets(change: Change, at: int, count: int) -> bool:
    """Whether a change takes away lines of a hunk, or puts some in there."""
    if not isinstance(change, Edit):
        return True
    end, hunk_end = change.line + len(change.old), at + count
    return change.line < hunk_end and at < end if count and change.old else change.line <= hunk_end and at <= end


def _same(path: str, at: int, lines: List[bytes]) -> List[Change]:
    if lines:
        return [Edit(path, at, lines, lines)]
    return [Edit(path, at, [], [b"decided"]), Edit(path, at, [b"decided"], [])]
