"""Carriers of a log that many processes share: the tags are unique, the order is the engine's, nothing is ever removed.

`open_log` makes one from an address. An entry is bytes, and entries are counted from 0; the first is the title, which a carrier
writes where the log is empty: `TITLE`, or with limits of the repository what `title_with` makes. `Damaged` is raised where it shows that an
entry was changed or removed, `Away` where no endpoint answers, `Foreign` where something else stands at the address.
"""

from __future__ import annotations

import contextlib
import enum
import fcntl
import os
import re
import sqlite3
import threading
import time
import zlib
from typing import Dict, Iterator, List, Optional, Protocol, Sequence, Tuple

TITLE = b"camp log 1\n"
TIMEOUT = 0.5
# The bytes of a checksum in a table.
SEAL = 8
# Seconds between two tries to lock a file; the next process to write has no other beside it, and tries more often.
PAUSE, SHORT_PAUSE = 0.001, 0.0002


def title_with(catches: int, branches: int) -> bytes:
    """The title of a log whose repository has at most so many changes in a branch, and so many branches."""
    return b"camp log 1 catches %d branches %d\n" % (catches, branches)


def limits_of(title: bytes) -> Dict[str, int]:
    """The limits that a title names, none of them if it is `TITLE`. A ValueError where it is no title."""
    found = re.fullmatch(rb"camp log 1(?: catches ([1-9]\d{0,8}) branches ([1-9]\d{0,5}))?\n", title)
    if not found:
        raise ValueError("no title of a log of camp: {!r}".format(title))
    return {"catches": int(found[1]), "branches": int(found[2])} if found[1] else {}


def default_patience() -> float:
    """For how many seconds an engine may be silent: those that CAMP_PATIENCE says, or 5."""
    return float(os.environ.get("CAMP_PATIENCE", 5.0))


class AppendOutcome(enum.Enum):
    """What is known of an append."""
    APPENDED = "appended"
    TAKEN = "the tag is in the log already"
    REFUSED = "it did not take place, and never will"
    UNKNOWN = "it may have taken place: ask again under the same tag"


class Log(Protocol):
    """What a carrier is."""

    def append(self, tag: str, text: bytes) -> AppendOutcome:
        """Appends an entry under a tag, once."""

    def read(self, index: int, wait: float = 0.0) -> List[bytes]:
        """The entries from an index on, some at a time; waits so many seconds at most for the first."""

    def length(self) -> int:
        """How many entries the engine has now, with all that were acknowledged to anybody."""

    def close(self) -> None:
        """Gives up what it holds."""


def open_log(address: str, title: bytes = TITLE, must_exist: bool = False) -> Log:
    """The log at an address: `sqlite:PATH`, `etcd:HOST:PORT[,HOST:PORT ..]/PREFIX`, or `postgres:DSN` as psycopg2 has it. A new log
    gets the title; a file that `must_exist` and is not there is `Away`."""
    kind, _, rest = address.partition(":")
    if kind == "sqlite" and rest:
        if must_exist and not os.path.exists(rest):
            raise Away("there is no file {}".format(rest))
        return SqliteLog(rest, title)
    hosts, _, prefix = rest.partition("/")
    if kind == "etcd" and hosts and prefix:
        from .etcd_log import EtcdLog
        return EtcdLog(hosts.split(","), prefix, title)
    if kind == "postgres" and rest:
        try:
            from .postgres_log import PostgresLog
        except ImportError:
            raise ImportError("a log in PostgreSQL needs psycopg2: `apt-get install python3-psycopg2`, or `pip install psycopg2-binary`") from None
        return PostgresLog(rest, title=title)
    raise ValueError("no address of a log: {!r}; write sqlite:PATH, etcd:HOST:PORT[,HOST:PORT ..]/PREFIX or postgres:DSN".format(address))


class Damaged(Exception):
    """An entry was changed or removed. The log can be read up to an index alone."""

    def __init__(self, index: int):
        self.index = index
        super().__init__("an entry was changed or removed: the log is read up to entry {} alone".format(index))


class Away(Exception):
    """The engine does not answer."""


def write_title(log: Log, title: bytes) -> None:
    """Appends the title where the log is empty; `Away` where the engine refuses it, or does not take it for a while."""
    end = time.monotonic() + default_patience()
    while log.length() == 0:
        if log.append("log", title) is AppendOutcome.REFUSED:
            raise Away("the engine refuses the title of the log: its space is full, or it is read-only")
        if time.monotonic() > end:
            raise Away("the engine does not take the title of the log")


class Foreign(Exception):
    """What stands at the address is of another program."""


def sealed(text: bytes, before: bytes) -> bytes:
    """What a table has of an entry: behind its text is a checksum of it and of the last bytes before it in the log, so that one that was
    changed or moved shows."""
    return b"%s%08x" % (text, zlib.crc32(before[-SEAL:] + text))


def unsealed(stored: bytes, before: bytes) -> Optional[bytes]:
    """The text of an entry; None if it was changed or moved. What ends a line is one that another program wrote, and is left to the member;
    older tables have a checksum of the text alone."""
    text = stored[:-SEAL]
    if stored.endswith(b"\n"):
        return stored
    return text if stored in (sealed(text, before), sealed(text, b"")) else None


def in_order(index: int, before: bytes, rows: Sequence[Tuple[int, bytes]]) -> List[bytes]:
    """The entries of rows, each with its index, from an index on and up to the first that is missing, changed or moved; `Damaged` if that is
    the first of all."""
    entries: List[bytes] = []
    for number, (at, stored) in enumerate(rows, index):
        text = unsealed(bytes(stored), before) if at == number and isinstance(stored, (bytes, memoryview)) else None
        if text is None:
            break
        entries.append(text)
        before = bytes(stored)
    if rows and not entries:
        raise Damaged(index)
    return entries


# The last bytes of an entry in SQLite, and the last entry of all.
END = "substr(CAST(text AS BLOB), -{})".format(SEAL)
LAST = "SELECT at, {} FROM entries ORDER BY at DESC LIMIT 1".format(END)


class SqliteLog:
    """A table of a SQLite file, for the processes of one machine. Each entry is on the disk before it counts. Who appends holds the
    file PATH-queue until it is its turn: else a process that has just written would be the first again, and others would starve."""

    def __init__(self, path: str, title: bytes = TITLE):
        self.path = os.fspath(path)
        self._local = threading.local()
        try:
            with contextlib.closing(sqlite3.connect(self.path, timeout=0)) as base:
                sql = "SELECT name FROM sqlite_master WHERE type = 'table'"
                tables = [row[0] for row in _patiently(lambda: base.execute(sql).fetchall())]
        except sqlite3.OperationalError as error:
            raise Away(str(error)) from None
        except sqlite3.DatabaseError as error:
            if "not a database" not in str(error):
                raise
            tables = [""]
        if tables and tables != ["entries"]:
            raise Foreign("{} is a file of another program".format(self.path))
        if not tables:
            self._once("CREATE TABLE IF NOT EXISTS entries (at INTEGER PRIMARY KEY, tag TEXT UNIQUE NOT NULL, text BLOB NOT NULL)")
        write_title(self, title)

    def _base(self) -> sqlite3.Connection:
        if not hasattr(self._local, "base"):
            base = sqlite3.connect(self.path, timeout=0, isolation_level=None)
            for pragma in ("journal_mode = WAL", "synchronous = FULL"):
                _patiently(lambda: base.execute("PRAGMA " + pragma))
            self._local.base = base
        return self._local.base

    def _once(self, sql: str, *values):
        try:
            return _patiently(lambda: self._base().execute(sql, values).fetchall())
        except sqlite3.Error as error:
            raise Away("SQLite says: {}".format(error)) from error

    def append(self, tag: str, text: bytes) -> AppendOutcome:
        try:
            base = self._base()
            # What is interrupted is rolled back.
            with base:
                with self._queue():
                    _patiently(lambda: base.execute("BEGIN IMMEDIATE"), TIMEOUT, SHORT_PAUSE)
                at, before = base.execute(LAST).fetchone() or (-1, b"")
                base.execute("INSERT INTO entries VALUES (?, ?, ?)", (at + 1, tag, sealed(text, before)))
            self._local.before = at + 1, before
            return AppendOutcome.APPENDED
        except sqlite3.IntegrityError:
            return AppendOutcome.TAKEN
        except (sqlite3.DataError, OverflowError):
            return AppendOutcome.REFUSED
        except Away:
            return AppendOutcome.UNKNOWN
        except sqlite3.Error as error:
            return AppendOutcome.REFUSED if self._is_refused(error, tag) else AppendOutcome.UNKNOWN

    @contextlib.contextmanager
    def _queue(self) -> Iterator[None]:
        """Waits for a while until no other process is the next one to write. A process that was stopped there stops nobody."""
        file = self._queue_file()
        if file is None:
            yield
            return
        end = time.monotonic() + TIMEOUT
        try:
            while not _is_locked(file) and time.monotonic() < end:
                time.sleep(PAUSE)
            yield
        finally:
            fcntl.flock(file, fcntl.LOCK_UN)

    def _queue_file(self) -> Optional[int]:
        if not hasattr(self._local, "queue"):
            try:
                self._local.queue = os.open(self.path + "-queue", os.O_RDONLY | os.O_CREAT, 0o666)
            except OSError:
                # Who may not write here is told by SQLite.
                return None
        return self._local.queue

    def _is_refused(self, error: sqlite3.Error, tag: str) -> bool:
        """Whether the engine took nothing under the tag, for certain: what it wrote of it is rolled back."""
        is_lasting = any(word in str(error) for word in ("full", "too big", "readonly"))
        try:
            self._base().rollback()
            return is_lasting and not self._once("SELECT 1 FROM entries WHERE tag = ?", tag)
        except (sqlite3.Error, Away):
            return False

    def read(self, index: int, wait: float = 0.0) -> List[bytes]:
        end = time.monotonic() + wait
        while True:
            rows = self._once("SELECT at, text FROM entries WHERE at >= ? ORDER BY at LIMIT 1024", index)
            if rows or time.monotonic() >= end:
                return in_order(index, self._before(index) if rows else b"", rows)
            time.sleep(PAUSE)

    def _before(self, index: int) -> bytes:
        """The end of the entry before an index. Whoever has just written at the index has read that."""
        known, before = self._local.__dict__.pop("before", (None, b""))
        if known == index:
            return before
        rows = self._once("SELECT {} FROM entries WHERE at = ?".format(END), index - 1)
        return rows[0][0] if rows else b""

    def length(self) -> int:
        return self._once("SELECT coalesce(max(at) + 1, 0) FROM entries")[0][0]

    def close(self) -> None:
        if hasattr(self._local, "base"):
            self._local.base.close()
            del self._local.base
        if hasattr(self._local, "queue"):
            os.close(self._local.queue)
            del self._local.queue


def own_file(path: str) -> sqlite3.Connection:
    """Opens a SQLite file that one process at a time writes, without Python's transactions. Its journal stays, since to make and remove one
    takes longer than to write it."""
    base = sqlite3.connect(path, timeout=10.0, isolation_level=None, check_same_thread=False)
    base.execute("PRAGMA journal_mode = PERSIST")
    return base


class RememberedLog:
    """A log, and what of it was read before, in a SQLite file, sealed as in a table. What was changed there is forgotten, and read again.
    Without an engine it has just that, as it is at first, and appends nothing."""

    def __init__(self, path: str, engine: Optional[Log] = None):
        self.engine = engine
        self._base = own_file(os.fspath(path))
        try:
            self._base.execute("CREATE TABLE IF NOT EXISTS entries (at INTEGER PRIMARY KEY, text BLOB NOT NULL)")
            self._end = self.known()
            self._check()
        except BaseException:
            self._base.close()
            raise

    def known(self) -> int:
        """How many entries were read before."""
        return self._base.execute("SELECT coalesce(max(at) + 1, 0) FROM entries").fetchone()[0]

    def entry(self, index: int) -> bytes:
        """An entry that was read before; empty where it was not, or was changed since."""
        return unsealed(self._stored(index), self._stored(index - 1)) or b""

    def _stored(self, index: int) -> bytes:
        """What the file has of an entry."""
        found = self._base.execute("SELECT text FROM entries WHERE at = ?", (index,)).fetchone()
        return found[0] if found and isinstance(found[0], bytes) else b""

    def forget(self, index: int) -> None:
        """Removes the entries from an index on: they will be read again."""
        self._base.execute("DELETE FROM entries WHERE at >= ?", (index,))

    def _check(self) -> None:
        """`Foreign` where the engine does not have what was read last."""
        last = self._end - 1
        while self.engine and last >= 0 and not self.entry(last):
            self.forget(last)
            self._end, last = last, last - 1
        if last < 0 or self.engine is None:
            return
        found = self.engine.read(last, 1.0) if self.engine.length() > last else []
        if found[:1] != [self.entry(last)]:
            raise Foreign("this log is another one than that which was read before, or it was cut")

    def append(self, tag: str, text: bytes) -> AppendOutcome:
        if self.engine is None:
            raise Away("there is no connection")
        return self.engine.append(tag, text)

    def read(self, index: int, wait: float = 0.0) -> List[bytes]:
        rows = self._base.execute("SELECT at, text FROM entries WHERE at >= ? ORDER BY at LIMIT 1024", (index,)).fetchall()
        try:
            known = in_order(index, self._stored(index - 1), [row for row in rows if self.engine or row[0] < self._end])
        except Damaged:
            if self.engine is None:
                raise
            self.forget(index)
            known = []
        if known or self.engine is None:
            return known
        found = self.engine.read(index, wait)
        self._keep(index, found)
        return found

    def _keep(self, index: int, entries: List[bytes]) -> None:
        before = self._stored(index - 1)
        self._base.execute("BEGIN")
        for at, text in enumerate(entries, index):
            before = sealed(text, before)
            self._base.execute("INSERT OR IGNORE INTO entries VALUES (?, ?)", (at, before))
        self._base.execute("COMMIT")

    def fetch(self) -> int:
        """Reads all that the engine has and was not read before, and returns how many entries are known then. `Away` where the engine
        sends nothing for a while."""
        known, length, end = self._end, self.length(), time.monotonic() + default_patience()
        while known < length:
            found = self.read(known, 0.2)
            known, end = known + len(found), time.monotonic() + default_patience() if found else end
            if time.monotonic() > end:
                raise Away("the log says that it has more, and does not send it")
        return known

    def length(self) -> int:
        return self.engine.length() if self.engine else self._end

    def close(self) -> None:
        self._base.close()
        if self.engine:
            self.engine.close()


def _patiently(ask, seconds: Optional[float] = None, pause: float = PAUSE):
    """What is asked, asked again while another process holds the file, for so many seconds, or as long as an engine may be silent."""
    began = time.monotonic()
    while True:
        try:
            return ask()
        except sqlite3.OperationalError as error:
            if not any(word in str(error) for word in ("locked", "busy", "locking protocol")):
                raise
            if time.monotonic() > began + (default_patience() if seconds is None else seconds):
                raise Away("the file is locked") from None
        time.sleep(pause)


def _is_locked(file: int) -> bool:
    """Locks an open file, unless another process has it locked; whether it did."""
    try:
        fcntl.flock(file, fcntl.LOCK_EX | fcntl.LOCK_NB)
    except BlockingIOError:
        return False
    return True
