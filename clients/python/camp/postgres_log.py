"""A log in PostgreSQL 12 or later: for processes of many machines that have a database already. Needs psycopg2."""
import hashlib
import select
import threading
import time
from typing import List

import psycopg2
from psycopg2 import errors

from .logs import SEAL, TIMEOUT, TITLE, AppendOutcome, Away, Foreign, in_order, sealed, write_title

# What ends a statement without a change, for certain: the server has said so, and rolled it back.
REFUSALS = (errors.DiskFull, errors.ProgramLimitExceeded, errors.DataException, errors.ReadOnlySqlTransaction, errors.InsufficientPrivilege)
TABLE = "CREATE TABLE IF NOT EXISTS {} (at bigint PRIMARY KEY, tag text UNIQUE NOT NULL, entry bytea NOT NULL)"
# The index and the last bytes of the last entry before an index. Appends take turns until they are committed, so nobody sees an index whose
# predecessor may still come.
LAST = "SELECT at, substring(entry FROM greatest(octet_length(entry) - {}, 1)) FROM {{}} WHERE at < %s ORDER BY at DESC LIMIT 1".format(SEAL - 1)
END = (1 << 63) - 1
APPEND = "INSERT INTO {} VALUES (%s, %s, %s)"


class PostgresLog:
    """Entries are the rows of one table, numbered without a gap. An append is on the disk before anybody sees it, and wakes those
    who wait for it by a notification."""

    def __init__(self, dsn: str, table: str = "camp_log", title: bytes = TITLE):
        if not table.isidentifier():
            raise ValueError("the name of a table is letters, digits and _: {!r}".format(table))
        self.dsn, self.table = dsn, table
        # The lock that appends of all processes take.
        self._lock = int.from_bytes(hashlib.sha256(table.encode()).digest()[:8], "big", signed=True)
        self._local = threading.local()
        self._patiently(lambda cursor: self._locked(cursor, TABLE))
        try:
            self._patiently(lambda cursor: self._rows(cursor, 0))
        except psycopg2.ProgrammingError:
            raise Foreign("the table {} is of another program".format(table)) from None
        write_title(self, title)

    def _base(self):
        """The connection of this thread; a new one where the last one was lost."""
        base = getattr(self._local, "base", None)
        if base is None or base.closed:
            base = psycopg2.connect(self.dsn, connect_timeout=2, options="-c synchronous_commit=on -c tcp_user_timeout=2000")
            base.autocommit = False
            self._local.base = base
        return base

    def _transaction(self, work):
        """Does work in one transaction. An error leaves the connection ready for the next one, or closed."""
        base = self._base()
        try:
            with base, base.cursor() as cursor:
                return work(cursor)
        except (psycopg2.InterfaceError, psycopg2.OperationalError):
            base.close()
            raise

    def _locked(self, cursor, sql: str, *values) -> None:
        cursor.execute("SELECT pg_advisory_xact_lock(%s)", (self._lock,))
        cursor.execute(sql.format(self.table), values)

    def _patiently(self, work, tries: int = 8):
        """Work that may be done twice, tried again while no server answers."""
        for _ in range(tries):
            try:
                return self._transaction(work)
            except (psycopg2.InterfaceError, psycopg2.OperationalError):
                time.sleep(TIMEOUT)
        raise Away("PostgreSQL does not answer")

    def append(self, tag: str, text: bytes) -> AppendOutcome:
        def work(cursor):
            self._locked(cursor, LAST, END)
            at, before = cursor.fetchone() or (-1, b"")
            cursor.execute(APPEND.format(self.table), (at + 1, tag, sealed(text, bytes(before))))
            cursor.execute("SELECT pg_notify(%s, '')", (self.table,))
        try:
            self._transaction(work)
            return AppendOutcome.APPENDED
        except errors.UniqueViolation:
            return AppendOutcome.TAKEN
        except REFUSALS:
            return AppendOutcome.REFUSED
        except psycopg2.Error:
            return AppendOutcome.UNKNOWN

    def read(self, index: int, wait: float = 0.0) -> List[bytes]:
        end = time.monotonic() + wait
        while True:
            before, rows = self._patiently(lambda cursor: self._rows(cursor, index))
            if rows or time.monotonic() >= end:
                return in_order(index, before, rows)
            self._await(end - time.monotonic())

    def _rows(self, cursor, index: int):
        cursor.execute("LISTEN {}".format(self.table))
        cursor.execute(LAST.format(self.table), (index,))
        _, before = cursor.fetchone() or (-1, b"")
        cursor.execute("SELECT at, entry FROM {} WHERE at >= %s ORDER BY at LIMIT 1024".format(self.table), (index,))
        return bytes(before), cursor.fetchall()

    def _await(self, seconds: float) -> None:
        """Waits for a notification, and so many seconds at most."""
        base = self._base()
        if not base.notifies and select.select([base], [], [], max(seconds, 0))[0]:
            base.poll()
        base.notifies.clear()

    def length(self) -> int:
        def work(cursor):
            cursor.execute("SELECT coalesce(max(at) + 1, 0) FROM {}".format(self.table))
            return cursor.fetchone()[0]
        return self._patiently(work)

    def close(self) -> None:
        if getattr(self._local, "base", None) is not None:
            self._local.base.close()
