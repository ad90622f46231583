"""What was found before, in SQLite files: answers of a shared repository, so that a program that only shows something need not load it, and stamps
of files, so that those that did not change are not read again.

    with Offline("seen.db") as repository:
        repository.open()
        answers = CachedAnswers(repository, "cache.db")
        print(answers.names("main"))                   # loads the repository the first time, and when the log has grown

Each row has a digest of the state, the question and the answer. A row of another state or of another version, or one that is damaged, has
another digest and counts for nothing, so the file may be cut, copied or removed at any time. It answers questions alone: calls are decided by
the repository."""

from __future__ import annotations

import contextlib
import hashlib
import marshal
import os
import sqlite3
import sys
import threading
from typing import Dict, Optional, Tuple

from ._library import VERSION
from .offline import Offline
from .questions import Questions
from .worktree import Stamp

# The questions whose answers are kept, up to so many bytes; and a word that is no question, for all notes.
KEPT, MOST, NOTES = ("annotate", "branches", "conflicts", "held", "missing", "names", "needs", "open", "show", "side"), 1 << 22, b"notes"
# Those that a loaded repository answers in less time than a file does.
QUICK = ("branches", "conflicts", "missing", "names", "show")
TABLE = "CREATE TABLE IF NOT EXISTS answers (question BLOB PRIMARY KEY, state BLOB NOT NULL, answer BLOB NOT NULL, digest BLOB NOT NULL)"


def digest(*parts: bytes) -> bytes:
    found = hashlib.blake2b(digest_size=16)
    for part in parts:
        found.update(b"%d " % len(part) + part)
    return found.digest()


class Cache:
    """A file of answers. Where it can't be read it has none, and where it can't be written it stays as it is."""

    def __init__(self, path: str) -> None:
        self.path, self.state = path, b""
        self.base: Optional[sqlite3.Connection] = None

    def _open(self) -> sqlite3.Connection:
        if self.base is None:
            self.base = sqlite3.connect(self.path, timeout=0.2, isolation_level=None, check_same_thread=False)
            self.base.execute("PRAGMA synchronous = OFF")
            self.base.execute(TABLE)
        return self.base

    def get(self, state: bytes, question: bytes) -> Optional[bytes]:
        """The answer to a question at a state, if it is kept."""
        try:
            row = self._open().execute("SELECT answer, digest FROM answers WHERE question = ?", (question,)).fetchone()
            return row[0] if row and row[1] == digest(state, question, row[0]) else None
        except (sqlite3.Error, TypeError):
            return None

    def put(self, state: bytes, question: bytes, answer: bytes) -> None:
        """Keeps an answer. Those of other states go; a file that is damaged is made anew."""
        for _ in range(2):
            try:
                base = self._open()
                base.execute("BEGIN IMMEDIATE")
                base.execute("DELETE FROM answers WHERE state != ?", (state,))
                base.execute("INSERT OR REPLACE INTO answers VALUES (?, ?, ?, ?)", (question, state, answer, digest(state, question, answer)))
                base.execute("COMMIT")
                return
            except sqlite3.Error as error:
                self.close()
                if "locked" in str(error):
                    return
                for path in (self.path, self.path + "-journal"):
                    with contextlib.suppress(OSError):
                        os.remove(path)

    def close(self) -> None:
        if self.base is not None:
            self.base.close()
        self.base = None


class CachedAnswers(Questions):
    """What a shared repository answers: out of a cache where that has it, else the repository is loaded for it. Where it `stays_loaded`,
    as in a process that serves many commands, it answers quick questions itself."""

    def __init__(self, of: Offline, path: str, stays_loaded: bool = False) -> None:
        self.of, self.cache, self.stays_loaded, self._lock = of, Cache(path), stays_loaded, threading.Lock()
        # The state and the notes, each with where the repository was then.
        self._state, self._notes = ((), b""), ((), {})  # type: Tuple[Tuple, bytes], Tuple[Tuple, Dict[str, bytes]]

    def close(self) -> None:
        self.cache.close()

    def state(self) -> bytes:
        """What stands for all that answers depend on: the version, the log up to its last entry, and the calls behind it."""
        if self._state[0] != self.of.at():
            entries, last, behind = self.of.position()
            self._state = self.of.at(), digest(VERSION.encode(), b"%d" % entries, last, *(part for call in behind for part in call))
        return self._state[1]

    def _respond(self, text: bytes) -> bytes:
        word = text.decode("ascii", "replace").split(None, 1)[0]
        is_kept = word in KEPT and not self.of.is_ahead and not (self.stays_loaded and self.of.is_loaded and word in QUICK)
        found = self.cache.get(self.state(), text) if is_kept else None
        if found is None:
            found = self.of.shared.ask(text)
            if is_kept and len(found) <= MOST and not found.startswith((b"refused", b"fault", b"memory")):
                self.cache.put(self.state(), text, found)
        return found

    @property
    def notes(self) -> Dict[str, bytes]:
        """The notes, by the names of their patches."""
        if self.of.is_loaded:
            return self.of.shared.notes
        if self._notes[0] != self.of.at():
            found = self.cache.get(self.state(), NOTES)
            self._notes = self.of.at(), self._keep_notes() if found is None else read_notes(found)
        return self._notes[1]

    def _keep_notes(self) -> Dict[str, bytes]:
        notes = self.of.shared.notes
        self.cache.put(self.state(), NOTES, b"".join(b"%s %d\n%s" % (name.encode(), len(note), note) for name, note in notes.items()))
        return notes

    def keep(self, own: str, branch: str) -> None:
        """Keeps what most commands ask of two branches, if the repository is loaded."""
        if not self.of.is_loaded or self.cache.get(self.state(), NOTES) is not None:
            return
        of_each = ["{} {}".format(question, name) for name in (own, branch) for question in ("names", "conflicts", "open")]
        for question in ("branches", *of_each, "missing {} {}".format(own, branch), "missing {} {}".format(branch, own)):
            self.ask(question + "\n")
        self._keep_notes()


class Stamps:
    """The stamps of files of the working tree that were found to be as in the base, each with a digest of what the base had: a file with the
    same stamp and the same digest need not be read again."""

    def __init__(self, path: str) -> None:
        self.cache, self.state = Cache(path), sys.version.encode()

    def read(self, digests: Dict[bytes, bytes]) -> Dict[bytes, Stamp]:
        """The stamps of files whose digests in the base are as they were."""
        try:
            kept = marshal.loads(self.cache.get(self.state, b"files") or b"")
            return {path: stamp for path, (stamp, found) in kept.items() if digests.get(path) == found}
        except (EOFError, ValueError, TypeError):
            return {}

    def write(self, digests: Dict[bytes, bytes], stamps: Dict[bytes, Stamp]) -> None:
        self.cache.put(self.state, b"files", marshal.dumps({path: (stamp, digests[path]) for path, stamp in stamps.items()}))
        self.cache.close()


def read_notes(text: bytes) -> Dict[str, bytes]:
    """The notes of a row."""
    found, at = {}, 0
    while at < len(text):
        end = text.index(b"\n", at)
        name, length = text[at:end].split(b" ")
        at = end + 1 + int(length)
        found[name.decode()] = text[end + 1:at]
    return found
