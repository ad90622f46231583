"""A folder with the files of a branch: what stands there now, and how it is brought from one tree to another.

Files are those of `camp.coding`. What stands in `.camp` or `.git`, and what `.campignore` lists, is no part of them."""

from __future__ import annotations

import contextlib
import os
import shutil
import stat
import time
from fnmatch import fnmatchcase
from typing import Dict, Iterable, Iterator, List, Optional, Set, Tuple

from .coding import EXECUTABLE, LINK, PLAIN, SUBMODULE, File, Files
from .errors import Error

OWN = b".camp"
# What is another one once a file is changed: its mode, size, two times and number.
Stamp = Tuple[int, ...]
# Names that are never files of a tree: what stands there is of the program that keeps the folder, or of git.
RESERVED = (OWN, b".git")
# Up to so many paths are looked for among all files one by one.
FEW = 8


class InTheWay(Error):
    """The folder can't have such files as it is: a name that is not allowed, or something that would be lost."""


class Unusable(Error):
    """A file can't be read, or new ones can't be written: rights, or a full disk."""


def text(path: bytes) -> str:
    """A path as it is shown: what is no text is escaped."""
    shown = path.decode("utf-8", "backslashreplace")
    return "".join(c if c.isprintable() else "\\x%02x" % ord(c) for c in shown)


class Ignored:
    """The patterns of `.campignore`, one on a line: `*.o` is any file or folder of such a name, `build/` a folder, `docs/*.pdf`
    a path from the top. A line that begins with `#` is a comment."""

    def __init__(self, top: bytes) -> None:
        try:
            with open(os.path.join(top, b".campignore"), "rb") as file:
                lines = [line.strip() for line in file.read().split(b"\n")]
        except FileNotFoundError:
            lines = []
        self.patterns = [line for line in lines if line and not line.startswith(b"#")]

    def has(self, path: bytes, is_folder: bool) -> bool:
        """Whether a pattern is for this path."""
        for pattern in self.patterns:
            bare = pattern.strip(b"/")
            subject = path if b"/" in pattern.rstrip(b"/") else os.path.basename(path)
            if fnmatchcase(os.fsdecode(subject), os.fsdecode(bare)) and (is_folder or not pattern.endswith(b"/")):
                return True
        return False


def read_file(top: bytes, path: bytes) -> Optional[File]:
    """A file as it is; None where there is none."""
    place = os.path.join(top, path)
    try:
        mode = os.lstat(place).st_mode
        if stat.S_ISLNK(mode):
            return File(LINK, os.readlink(place))
        if not stat.S_ISREG(mode):
            return None
        with open(place, "rb") as file:
            return File(EXECUTABLE if mode & stat.S_IXUSR else PLAIN, file.read())
    except (FileNotFoundError, NotADirectoryError):
        return None
    except PermissionError:
        raise Unusable("{} can't be read: chmod u+r it, or list it in .campignore".format(text(path))) from None


def _stamp_of(entry: os.DirEntry[bytes]) -> Stamp:
    """The stamp of a file; nothing where it is gone."""
    try:
        status = entry.stat(follow_symlinks=False)
    except FileNotFoundError:
        return ()
    return status.st_mode, status.st_size, status.st_mtime_ns, status.st_ctime_ns, status.st_ino


def scan(top: bytes, base: Files, unchanged: Optional[Dict[bytes, Stamp]] = None) -> Files:
    """The files of the working tree; those that are ignored count where the base has them. A file whose stamp is in `unchanged` is as in
    the base and is not read; the stamps of those that were read and are so are put there."""
    ignored, stamps = Ignored(top), {} if unchanged is None else unchanged
    folders = _folders(base) if ignored.patterns else set()
    found = {path: file for path, file in base.items() if file.mode == SUBMODULE}
    # A file that was changed just now may be changed once more within the resolution of its times.
    latest = time.time_ns() - 3_000_000_000
    for path, entry in _walk(top, ignored, folders):
        known = base.get(path)
        if known is None and ignored.has(path, False):
            continue
        stamp = _stamp_of(entry) if known else ()
        if known and stamp and stamps.get(path) == stamp:
            found[path] = known
            continue
        file = read_file(top, path)
        if file is not None:
            found[path] = file
        if stamp and file == known and max(stamp[2:4]) < latest:
            stamps[path] = stamp
    return found


def _folders(base: Files) -> Set[bytes]:
    """The folders that have files of the base."""
    folders: Set[bytes] = set()
    for path in base:
        at = path.rfind(b"/")
        while at > 0 and path[:at] not in folders:
            folders.add(path[:at])
            at = path.rfind(b"/", 0, at)
    return folders


def _walk(top: bytes, ignored: Ignored, folders: Set[bytes]) -> Iterator[Tuple[bytes, os.DirEntry[bytes]]]:
    """The files below a folder, without those in folders that are ignored, unless it is one of these."""
    left = [b""]
    while left:
        before = left.pop()
        with os.scandir(b"%s/%s" % (top, before)) as entries:
            for entry in entries:
                name = entry.name
                if name.lower() in RESERVED:
                    continue
                path = before + name
                if not entry.is_dir(follow_symlinks=False):
                    yield path, entry
                elif path in folders or not ignored.has(path, True):
                    left.append(path + b"/")


def changed(before: Files, after: Files) -> List[bytes]:
    """The paths whose files differ."""
    return sorted(path for path in before.keys() | after.keys() if before.get(path) != after.get(path))


def _are_folders(files: Files, paths: List[bytes]) -> Set[bytes]:
    """Those of some paths that have files below them."""
    if len(paths) > FEW:
        return _folders(files).intersection(paths)
    return {path for path in paths if any(it.startswith(path + b"/") for it in files)}


def check_names(files: Files, paths: Iterable[bytes]) -> None:
    """`InTheWay` where a working tree can't have these paths among its files."""
    added = sorted(path for path in paths if path in files)
    folders = _are_folders(files, added)
    for path in added:
        parts, file = path.split(b"/"), files[path]
        if file.mode == LINK and (not file.content or b"\0" in file.content):
            raise InTheWay("{}: a symbolic link can't lead there".format(text(path)))
        if any(part in (b"", b".", b"..") or part.lower() in RESERVED or b"\0" in part or len(part) > 255 for part in parts):
            raise InTheWay("{}: a working tree can't have a file of this name".format(text(path)))
        for way in [b"/".join(parts[:at]) for at in range(1, len(parts))] + [path] * (path in folders):
            if way in files:
                raise InTheWay("{} is a file and a folder: a working tree can't have both".format(text(way)))


class Update:
    """A way from one tree to another: all new files are written aside first, so a full disk leaves the working tree as it was."""

    def __init__(self, top: bytes, before: Files, after: Files, paths: Optional[List[bytes]] = None) -> None:
        self.top, self.before, self.after = top, before, after
        self.paths = changed(before, after) if paths is None else paths
        self.stage = os.path.join(top, OWN, b"stage")
        check_names(after, self.paths)
        self._check_ways()
        try:
            self._write_aside()
        except OSError as error:
            shutil.rmtree(self.stage, ignore_errors=True)
            advice = "make room, and try again; nothing has changed"
            raise Unusable("the new files can't be written: {}: {}".format(error.strerror, advice)) from None

    def _check_ways(self) -> None:
        """What stands in the way of a new file is not written over."""
        for path in self.paths:
            parts = path.split(b"/")
            ways = [b"/".join(parts[:at]) for at in range(1, len(parts) + 1)] if path in self.after else []
            for way in ways:
                place = os.path.join(self.top, way)
                is_well = way in self.before or not os.path.lexists(place) or (os.path.isdir(place) and not os.path.islink(place))
                if way == path and os.path.isdir(place) and not os.path.islink(place) and any(os.scandir(place)):
                    is_well = any(it.startswith(way + b"/") for it in self.before)
                if not is_well:
                    raise InTheWay("{} is in the way: move it elsewhere, and try again; nothing has changed".format(text(way)))

    def _write_aside(self) -> None:
        shutil.rmtree(self.stage, ignore_errors=True)
        os.makedirs(self.stage)
        for number, path in enumerate(self.paths):
            place, file = os.path.join(self.stage, b"%d" % number), self.after.get(path)
            if file is None or file.mode == SUBMODULE:
                continue
            if file.mode == LINK:
                os.symlink(file.content, place)
                continue
            with open(place, "xb") as opened:
                opened.write(file.content)
            if file.mode == EXECUTABLE:
                os.chmod(place, os.stat(place).st_mode | 0o111)

    def install(self) -> None:
        """Moves the new files to their places, and removes the old ones."""
        with self.installed():
            pass

    @contextlib.contextmanager
    def installed(self) -> Iterator[None]:
        """Moves the new files to their places, and the old ones aside. They are moved back if that or the block fails, which takes no
        room on the disk, and removed if not."""
        try:
            self._move()
            yield
        except BaseException:
            self._move_back()
            raise
        finally:
            shutil.rmtree(self.stage, ignore_errors=True)

    def _staged(self, number: int) -> Tuple[bytes, bytes]:
        """Where the new file of a path is before it is moved, and the old one after that."""
        return os.path.join(self.stage, b"%d" % number), os.path.join(self.stage, b"old-%d" % number)

    def _move(self) -> None:
        for number, path in sorted(enumerate(self.paths), key=lambda it: it[1], reverse=True):
            self._remove(path, self._staged(number)[1])
        for number, path in enumerate(self.paths):
            place, new = os.path.join(self.top, path), self._staged(number)[0]
            if os.path.lexists(new):
                os.makedirs(os.path.dirname(place), exist_ok=True)
                os.replace(new, place)

    def _move_back(self) -> None:
        for number, path in enumerate(self.paths):
            new = self._staged(number)[0]
            if path in self.after and self.after[path].mode != SUBMODULE:
                self._remove(path, None if os.path.lexists(new) else new)
        for number, path in enumerate(self.paths):
            place, old = os.path.join(self.top, path), self._staged(number)[1]
            if os.path.lexists(old):
                os.makedirs(os.path.dirname(place), exist_ok=True)
                os.replace(old, place)

    def _is_folder(self, path: bytes) -> bool:
        place = os.path.join(self.top, path)
        return os.path.isdir(place) and not os.path.islink(place)

    def _remove(self, path: bytes, aside: Optional[bytes]) -> None:
        """Moves a file aside, if it is there and None is not given, and removes the folders that are empty then, up from it."""
        place = os.path.join(self.top, path)
        if aside is not None and os.path.lexists(place) and not self._is_folder(path):
            os.replace(place, aside)
        folder = place if self._is_folder(path) else os.path.dirname(place)
        while folder != self.top and os.path.isdir(folder) and not any(os.scandir(folder)):
            os.rmdir(folder)
            folder = os.path.dirname(folder)


@contextlib.contextmanager
def finished(top: bytes, before: Files, after: Files, is_record: bool) -> Iterator[Dict[bytes, bytes]]:
    """Ends an update that was interrupted: files that are as before become those after; they are as before again if the block fails. What
    was changed since is left where it was recorded, else moved aside: the result has these, and where they are now."""
    moved: Dict[bytes, bytes] = {}
    old = {path: read_file(top, path) for path in changed(before, after)}
    todo = [] if is_record else [path for path, file in old.items() if file != after.get(path)]
    for path in todo:
        if old[path] is not None and old[path] != before.get(path):
            moved[path] = path + b".saved"
            os.replace(os.path.join(top, path), os.path.join(top, moved[path]))
    with Update(top, before, after, todo).installed():
        yield moved
