"""The state of a working copy, in `.camp/state.db`: settings, and the base, which is the tree that its files were last brought to."""

from __future__ import annotations

import contextlib
import fcntl
import os
import sqlite3
import time
from typing import Dict, Iterator, Tuple

from camp.coding import File, Files
from camp.worktree import changed, text

from . import Failure

# The journal stays, since to make and remove one takes longer than to write it.
TABLES = """PRAGMA journal_mode = PERSIST;
CREATE TABLE IF NOT EXISTS settings (key TEXT PRIMARY KEY, value TEXT NOT NULL);
CREATE TABLE IF NOT EXISTS base (path BLOB PRIMARY KEY, mode TEXT NOT NULL, content BLOB NOT NULL);
"""
PATIENCE = 10.0
# The base of a copy that this process has read, by the path of its state, after what names it there.
KNOWN: Dict[bytes, Tuple[str, Files]] = {}


class State:
    """The state of the working copy at a folder."""

    def __init__(self, top: bytes) -> None:
        self.path = os.path.join(top, b".camp", b"state.db")
        self.db = sqlite3.connect(os.fsdecode(self.path), timeout=PATIENCE, isolation_level="IMMEDIATE", check_same_thread=False)
        self.db.executescript(TABLES)
        self._base: Files | None = None

    def close(self) -> None:
        self.db.close()

    def get(self, key: str, default: str = "") -> str:
        row = self.db.execute("SELECT value FROM settings WHERE key = ?", (key,)).fetchone()
        return row[0] if row else default

    def update(self, files: Files | None = None, **settings: str) -> None:
        """Writes settings, and the base if files are given, in one transaction."""
        base, name = ({}, "") if files is None else (self.base(), os.urandom(16).hex())
        with self.db:
            self.db.executemany("INSERT OR REPLACE INTO settings VALUES (?, ?)", {**settings, **({"base": name} if name else {})}.items())
            for path in changed(base, files or {}):
                if files and path in files:
                    self.db.execute("INSERT OR REPLACE INTO base VALUES (?, ?, ?)", (path, *files[path]))
                else:
                    self.db.execute("DELETE FROM base WHERE path = ?", (path,))
        if files is not None:
            self._base = dict(files)
            KNOWN[self.path] = name, self._base

    def base(self) -> Files:
        """Returns the files that the working tree was last brought to."""
        if self._base is None:
            name, (known, self._base) = self.get("base"), KNOWN.get(self.path, ("", {}))
            if not name or known != name:
                self._base = {row[0]: File(row[1], row[2]) for row in self.db.execute("SELECT path, mode, content FROM base")}
            KNOWN[self.path] = name, self._base
        return self._base


@contextlib.contextmanager
def locked(top: bytes) -> Iterator[None]:
    """Lets one command at a time change a working copy; another one waits for it, CAMPVC_PATIENCE seconds or 10."""
    folder = os.path.join(top, b".camp")
    written = [folder, *(os.path.join(folder, name) for name in (b"lock", b"state.db", b"seen.db"))]
    if any(os.path.exists(path) and not os.access(path, os.W_OK) for path in written):
        raise Failure("{} can't be written: `chmod -R u+w` it, or work in a copy of your own, which `campvc clone` makes; nothing has changed"
                      .format(text(folder)), 128)
    with open(os.path.join(folder, b"lock"), "a+", encoding="ascii") as file:
        end = time.monotonic() + float(os.environ.get("CAMPVC_PATIENCE", PATIENCE))
        while True:
            try:
                fcntl.flock(file, fcntl.LOCK_EX | fcntl.LOCK_NB)
                break
            except OSError:
                if time.monotonic() > end:
                    file.seek(0)
                    raise Failure("another campvc (process {}) is at work in this folder: wait until it ends, and try again"
                                  .format(file.read() or "?"), 128) from None
                time.sleep(0.05)
        file.truncate(0)
        file.write(str(os.getpid()))
        file.flush()
        yield
