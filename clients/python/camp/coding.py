"""Files with modes and any bytes as files of lines, which camp has, and back: `decode(encode(files)) == files`.

| A file has | camp has |
|---|---|
| a path | the path, `%XX` for each byte outside 0x21 to 0x7e and for `%`; so first parts `%m`, `%n`, `%w`, `%e` are free |
| mode 100755, 120000 or 160000 | a file `%m/PATH` with one line, the mode |
| no LF at its end | an empty file `%n/PATH` |
| a line over 4,096 bytes | all lines in pieces, behind `+` (goes on) or `=` (ends), and an empty file `%w/PATH` |
"""

from __future__ import annotations

import re
from typing import Dict, List, NamedTuple, Optional

from .answers import Tree
from .changes import Change
from .diffs import diff
from .errors import Error

MAX_LINE, MAX_PIECE, MAX_LINES, MAX_PATH = 4_096, 4_095, 1_000_000, 200
PLAIN, EXECUTABLE, LINK, SUBMODULE = "100644", "100755", "120000", "160000"
MODE, NO_END, PIECES = "%m/", "%n/", "%w/"


class Unheld(Error):
    """A file that camp can't hold: its path or its number of lines is over a limit. The words say which."""


class File(NamedTuple):
    """A file: its mode as git writes it, and its bytes. Those of a symbolic link are where it leads."""
    mode: str
    content: bytes


Files = Dict[bytes, File]


def encode_path(path: bytes) -> str:
    """The path of camp for a path."""
    return re.sub(rb"[^\x21-\x24\x26-\x7e]", lambda found: b"%%%02X" % ord(found[0]), path).decode("ascii")


def decode_path(path: str) -> Optional[bytes]:
    """The path that is encoded so, or None where none is."""
    found = re.sub(rb"%([0-9A-F]{2})", lambda it: bytes([int(it[1], 16)]), path.encode("ascii"))
    return found if encode_path(found) == path else None


def file_name(path: str) -> bytes:
    """The path of the file that a path of camp is about."""
    return decode_path(plain_path(path)) or path.encode("ascii")


def plain_path(path: str) -> str:
    """The path of the file that a path of camp is about, also where that says its mode or its end."""
    return path[3:] if path[:3] in (MODE, NO_END, PIECES) else path


def places(path: bytes) -> List[str]:
    """The paths of camp that say something of a file."""
    return [kind + encode_path(path) for kind in ("", PIECES, NO_END, MODE)]


def encode(files: Files) -> Tree:
    """The tree of camp for files; `Unheld` names the file that it can't hold."""
    tree: Tree = {}
    for name, file in sorted(files.items()):
        path, lines = encode_path(name), file.content.split(b"\n")
        has_end = lines[-1] == b""
        lines = lines[:-1] if has_end else lines
        is_long = any(len(line) > MAX_LINE for line in lines)
        tree[path] = [piece for line in lines for piece in _pieces(line)] if is_long else lines
        said = {MODE: [file.mode.encode()] if file.mode != PLAIN else None, NO_END: None if has_end else [], PIECES: [] if is_long else None}
        tree.update({kind + path: value for kind, value in said.items() if value is not None})
        if len(path) + len(MODE) > MAX_PATH:
            raise Unheld("{}: its path has over {} bytes as camp writes it".format(path, MAX_PATH - len(MODE)))
        if len(tree[path]) > MAX_LINES:
            raise Unheld("{}: it has over {:,} lines".format(path, MAX_LINES))
    return tree


def file_changes(old: Tree, files: Files, path: bytes) -> List[Change]:
    """The changes of a tree of camp that make a file what it is among the files, with all that is said of it there."""
    new, changes = encode({path: files[path]} if path in files else {}), []  # type: Tree, List[Change]
    for place in places(path):
        changes += diff(place, old.get(place), new.get(place))
    return changes


def decode(tree: Tree) -> Files:
    """The files that a tree of camp stands for. What only says something of a file that is not there is passed over, as a
    conflict may leave it."""
    files: Files = {}
    for path, lines in tree.items():
        name = decode_path(path)
        if name is None:
            continue
        lines = _joined(lines) if PIECES + path in tree else lines
        content = b"".join(line + b"\n" for line in lines)
        content = content[:-1] if NO_END + path in tree and lines and lines[-1] else content
        mode = b"".join(tree.get(MODE + path, [])).decode("ascii", "replace")
        files[name] = File(mode if mode in (EXECUTABLE, LINK, SUBMODULE) else PLAIN, content)
    return files


def _pieces(line: bytes) -> List[bytes]:
    cut = [line[at:at + MAX_PIECE] for at in range(0, max(1, len(line)), MAX_PIECE)]
    return [b"+" + piece for piece in cut[:-1]] + [b"=" + cut[-1]]


def _joined(pieces: List[bytes]) -> List[bytes]:
    lines, begun = [], b""
    for piece in pieces:
        begun += piece[1:]
        if piece[:1] != b"+":
            lines.append(begun)
            begun = b""
    return lines + [begun] * bool(begun)
