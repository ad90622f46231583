"""Snapshots of a log: a file that stands for the log up to an entry, from which a repository is shared without what came before it.

    write_snapshot(open_log("etcd:127.0.0.1:2379/notes"), "notes.snapshot")
    with Shared(open_log("etcd:127.0.0.1:2379/notes"), snapshot="notes.snapshot") as shared:
        shared.sync()                                  # reads what the log has after the snapshot

It has the accepted calls in order, each under its seat, and of each seat the last number in the log, as entries of the log; and a digest of
the log's entry before the next one, whose tag no other log has. `BadSnapshot` is raised where a file is none, was changed, or is of
another log."""

from __future__ import annotations

import hashlib
import os
import re
from typing import Dict, Iterator, List, NamedTuple, Tuple

from ._member import Code, LogMember
from .errors import Error
from .logs import Away, Log, default_patience

HEAD = re.compile(rb"camp snapshot 1 entries (\d+) last ([0-9a-f]{32})\n")
ROW = re.compile(rb"at (\d+) bytes (\d+)\n")
# An entry has at most so many calls, and these so many bytes.
MOST_CALLS, MOST_BYTES = 256, 1_048_516
# A question: an entry of it adds nothing, and says the number of a seat.
NOTHING = b"tree main\n"


class BadSnapshot(Error):
    """A file is no snapshot, was changed, or is of another log. Without it the log is read from its start."""


def digest(text: bytes) -> bytes:
    return hashlib.blake2b(text, digest_size=16).hexdigest().encode()


class Snapshot(NamedTuple):
    """The title of a log, entries that stand for it, each with its index, and the digest of the log's entry at the last index."""
    title: bytes
    entries: List[Tuple[int, bytes]]
    last: bytes

    @property
    def index(self) -> int:
        """The index of the log's last entry that it stands for."""
        return self.entries[-1][0] if self.entries else 0

    def check(self, log: Log) -> None:
        """`BadSnapshot` where it is of another log."""
        found = log.read(self.index, 1.0) if log.length() > self.index else []
        if not found or digest(found[0]) != self.last:
            raise BadSnapshot("the snapshot is of another log, or the log was cut: remove it, and the log is read from its start")


class Pieces:
    """The entries of a snapshot: calls that one seat had accepted one after another, together."""

    def __init__(self) -> None:
        self.found: List[Tuple[int, bytes]] = []
        self._seat, self._number, self._at, self._calls = b"", 0, 0, []  # type: bytes, int, int, List[bytes]
        # The seats whose last entry added nothing, with its index and number.
        self._without: Dict[bytes, Tuple[int, int]] = {}

    def add(self, at: int, seat: bytes, number: int, calls: List[bytes]) -> None:
        """Takes an entry of the log that counts: its index, its tag, and those of its calls that were accepted."""
        if not calls:
            self._without[seat] = at, number
            return
        self._without.pop(seat, None)
        every = self._calls + calls
        if seat != self._seat or len(every) > MOST_CALLS or sum(map(len, every)) > MOST_BYTES:
            self._end()
        self._seat, self._number, self._at, self._calls = seat, number, at, self._calls + calls

    def _end(self) -> None:
        if self._calls:
            self.found.append((self._at, entry(self._seat, self._number, b"".join(self._calls))))
        self._calls = []

    def end(self) -> List[Tuple[int, bytes]]:
        """All entries, in the order of their indexes."""
        self._end()
        return sorted(self.found + [(at, entry(seat, number, NOTHING)) for seat, (at, number) in self._without.items()])


def entry(seat: bytes, number: int, calls: bytes) -> bytes:
    return b"entry %s %d\n" % (seat, number) + calls


def snapshot_of(log: Log) -> Snapshot:
    """Reads a log to its end, and returns a snapshot of it."""
    texts = texts_of(log)
    title = last = next(texts)
    member, pieces, numbers = LogMember(os.urandom(16).hex(), title), Pieces(), {}  # type: LogMember, Pieces, Dict[bytes, int]
    for at, text in enumerate(texts, 1):
        before = member.accepted
        if member.found(at, text) is Code.FOREIGN:
            raise BadSnapshot("a foreign entry at entry {} of the log: there is no snapshot of it".format(at))
        seat, number = tag_of(text)
        if number > numbers.get(seat, 0):
            numbers[seat], last = number, text
            pieces.add(at, seat, number, [member.call(it) for it in range(before, member.accepted)])
    member.close()
    return Snapshot(title, pieces.end(), digest(last))


def texts_of(log: Log) -> Iterator[bytes]:
    """The entries that a log has now, in order."""
    at, length = 0, log.length()
    while at < length:
        texts = log.read(at, default_patience())[:length - at]
        if not texts:
            raise Away("the log says that it has more, and does not send it")
        yield from texts
        at += len(texts)


def tag_of(text: bytes) -> Tuple[bytes, int]:
    """The seat and the number of an entry."""
    _, seat, number = text[:text.index(b"\n")].split(b" ")
    return seat, int(number)


def write_snapshot(log: Log, path: str) -> Snapshot:
    """Reads a log to its end, and writes a snapshot of it to a file, which is there whole or as it was before."""
    snapshot = snapshot_of(log)
    rows = [b"at %d bytes %d\n" % (at, len(text)) + text for at, text in snapshot.entries]
    whole = b"camp snapshot 1 entries %d last %s\n" % (len(rows), snapshot.last) + snapshot.title + b"".join(rows)
    with open(path + "-new", "wb") as file:
        file.write(whole + digest(whole) + b"\n")
        file.flush()
        os.fsync(file.fileno())
    os.replace(path + "-new", path)
    return snapshot


def read_snapshot(path: str) -> Snapshot:
    """Reads a snapshot from a file."""
    with open(path, "rb") as file:
        content = file.read()
    whole, seal = content[:-33], content[-33:]
    head = HEAD.match(whole)
    if not head or seal != digest(whole) + b"\n":
        raise BadSnapshot("{} is no snapshot of a log, or was changed: remove it, and the log is read from its start".format(path))
    at = whole.index(b"\n", head.end()) + 1
    title, entries = whole[head.end():at], []
    while row := ROW.match(whole, at):
        at = row.end() + int(row[2])
        entries.append((int(row[1]), whole[row.end():at]))
    return Snapshot(title, entries, head[2])
