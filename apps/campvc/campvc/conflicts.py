"""Conflicts in the working tree: files with marks that name the sides, or with the lines of one side."""

from __future__ import annotations

import argparse
from typing import List

from camp import Hunk, sides
from camp.coding import LINK, PLAIN, File, Files, encode_path
from camp.worktree import Update, text

from . import Failure, show
from .copy import Copy, reading, writing
from .show import counted, emit


def described(copy: Copy, name: str) -> str:
    """Describes a side: its patch, with author and title."""
    note = copy.note(name)
    return "{} ({}: {})".format(name, note.who, note.title)


def check_marks(path: bytes, content: bytes) -> None:
    """Raises a `Failure` if a file still has marks."""
    line = sides.first_mark(content)
    if line:
        raise Failure("{} still has marks of a conflict, at line {}: decide, take the marks out, and record again".format(text(path), line))


def marked_files(copy: Copy) -> List[bytes]:
    """Returns the files that `resolve` wrote to, and that are not recorded since."""
    return [bytes.fromhex(it) for it in copy.state.get("marked").split()]


def remember_marked(copy: Copy, paths: List[bytes]) -> None:
    copy.state.update(marked=" ".join(path.hex() for path in sorted(set(paths))))


def conflicts(words: argparse.Namespace) -> int:
    with reading() as copy:
        found = copy.unresolved()
        for path, pairs in found.items():
            emit(text(path), show.BOLD)
            for pair in pairs:
                show.print_names(copy, pair)
        emit("`campvc resolve` writes the sides into the files" if found else "nothing is in conflict")
    return 1 if found else 0


def resolve(words: argparse.Namespace) -> int:
    """Writes marks, or one side, into files in conflict."""
    with writing() as copy:
        files, base, found = copy.scan(), copy.state.base(), sides.unresolved(copy.repository, copy.own)
        name = words.take and copy.name_of(words.take)
        wanted = [path for path, pairs in sides.by_file(found).items() if not name or any(name in pair for pair in pairs)]
        named = sorted({copy.place(path) for path in words.paths} or wanted)
        for path in named:
            if path not in wanted:
                raise Failure("{}: no conflict {}there is unresolved".format(text(path), "of {} ".format(name) if name else ""))
            if files.get(path) != base.get(path):
                raise Failure("{} has changes that are not recorded: record them, or take them back, and try again".format(text(path)))
        after = dict(files)
        for path in named:
            if name:
                side = sides.take_side(copy.repository, copy.own, path, name, found)
                after.update({path: side}) if side else after.pop(path, None)
            else:
                write_marks(copy, path, found, after)
        with Update(copy.top, files, after).installed():
            remember_marked(copy, [*marked_files(copy), *named])
        done = "`campvc record` decides so" if name else "edit the files, and `campvc record` decides"
        emit(done if named else "nothing is in conflict")
    return 0 if named else 1


def write_marks(copy: Copy, path: bytes, found: sides.Unresolved, files: Files) -> None:
    """Puts the sides of a conflict into its file, with marks."""
    place, shown = encode_path(path), text(path)
    if place not in found:
        emit("{}: the sides differ in its mode or its end: make it as it is to be, and record".format(shown))
        return
    hunks = sides.hunks(copy.repository, copy.own, place, found[place])
    names = {name for pair in found[place] for name in pair}
    old = [files[path]] if path in files else [sides.take_side(copy.repository, copy.own, path, name, found) for name in names]
    has_no_lines = any(file and (file.mode == LINK or b"\0" in file.content) for file in old)
    if has_no_lines or not any(isinstance(hunk, Hunk) and hunk.sides for hunk in hunks):
        emit("{}: no lines to compare: say `campvc resolve --take PATCH {}`, or record it as it is".format(shown, shown))
        return
    marked = sides.marked(hunks, lambda name: described(copy, name), "keep one of these, or write what is right, and take the marks out")
    files[path] = File(files[path].mode if path in files else PLAIN, b"".join(line + b"\n" for line in marked))
    emit("{}: {}".format(shown, counted(sum(isinstance(hunk, Hunk) for hunk in hunks), "place")))
