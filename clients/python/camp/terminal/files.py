"""save, read and open: the file that is named, and how it is written whole or not at all."""

from __future__ import annotations

import os
import shlex
import shutil
import subprocess
import tempfile
from typing import List


STORE = b"camp store "


class BadFile(Exception):
    """A file that can't be named, written or read so; the text says why."""


def named_file(rest: str, command: str) -> str:
    """The file that a command names: one word, in quotation marks if it has blanks; ~ is the home folder."""
    words = words_of_file(rest)
    if len(words) != 1 or not words[0]:
        raise BadFile('{} FILE names one file; write one with blanks as "a file"'.format(command))
    return path_of(words[0])


def words_of_file(rest: str) -> List[str]:
    """The words behind a command, some of which may be in quotation marks."""
    try:
        return shlex.split(rest)
    except ValueError:
        raise BadFile("a quotation mark is not closed") from None


def path_of(word: str) -> str:
    # A line is UTF-8, whatever the names of files are.
    return os.path.expanduser(os.fsdecode(word.encode("utf-8", "surrogateescape")))


def check_target(path: str) -> None:
    """Refuses to write over a folder, a device and the like, and over a store, which some process may have open."""
    if os.path.exists(path) and not os.path.isfile(path):
        raise BadFile("{} is no regular file; nothing is saved".format(path))
    if is_store(path):
        raise BadFile("{} is a store; nothing is saved".format(path))


def drawn(dot: str, path: str) -> bytes:
    """A picture in DOT as a file whose name ends so: as it is, or as Graphviz draws it."""
    kind = os.path.splitext(path)[1]
    if kind in (".dot", ".gv"):
        return dot.encode("utf-8")
    if kind not in (".svg", ".png", ".pdf"):
        raise BadFile("{} is no name of a picture: it ends in .svg, .png, .pdf or .dot".format(path))
    program = shutil.which("dot")
    if not program:
        raise BadFile("Graphviz's program dot is not on the PATH: install it, or write {}.dot".format(path[: -len(kind)]))
    done = subprocess.run([program, "-T" + kind[1:]], input=dot.encode("utf-8"), stdout=subprocess.PIPE, stderr=subprocess.PIPE, check=False)
    if done.returncode:
        raise BadFile("dot can't draw it: {}".format(done.stderr.decode(errors="backslashreplace").strip()))
    return done.stdout


def is_store(path: str) -> bool:
    """Whether a file begins as a store does, whose first text follows a line of 27 bytes."""
    try:
        with open(path, "rb") as file:
            return file.read(len(STORE) + 27)[27:] == STORE
    except OSError:
        return False


def write_whole(path: str, text: bytes) -> None:
    """Writes a file that has all of the text or is as it was before. A file that exists keeps its mode."""
    target, made = os.path.realpath(path), None
    try:
        handle, made = tempfile.mkstemp(prefix=".camp-", dir=os.path.dirname(target))
        with os.fdopen(handle, "wb") as file:
            os.fchmod(handle, mode_of(target))
            file.write(text)
            file.flush()
            os.fsync(handle)
        os.replace(made, target)
    except OSError as error:
        if made and os.path.exists(made):
            os.remove(made)
        raise BadFile("{}: {}; nothing is saved".format(path, error.strerror)) from None


def mode_of(path: str) -> int:
    """The mode of a file; of one that does not exist, that of a new one."""
    if os.path.exists(path):
        return os.stat(path).st_mode & 0o7777
    mask = os.umask(0)
    os.umask(mask)
    return 0o666 & ~mask


def lines_of(path: str) -> List[bytes]:
    """The lines of a file of commands."""
    if is_store(path):
        raise BadFile("{} is a store: open goes on with it".format(path))
    try:
        with open(path, "rb") as file:
            text = file.read()
    except OSError as error:
        raise BadFile("{}: {}".format(path, error.strerror)) from None
    lines = text.split(b"\n")
    return lines if lines[-1] else lines[:-1]
