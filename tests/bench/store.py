"""Calls a second of a store, beside SQLite on the same disk; bytes of a call; openings of 65,536 calls.

Words: a folder on the disk that is measured. Each figure but the bytes is the median of three.
"""

import os
import sqlite3
import tempfile
import time

from tests.bench.clients import at_once, awaited
from tests.harness import programs
from tests.harness.paths import write
from tests.harness.store import Store, long_script, oks

SECONDS, GATE = 60, "never"
ALONE, PIPED, BATCH, LONG, TIMES = 2000, 60000, 256, 65536, 3


def run(report, words):
    with tempfile.TemporaryDirectory(dir=words[0] if words else None) as folder:
        store, commands = Store(report, folder), long_script(PIPED)
        few, place = commands[:ALONE], lambda *parts: store.path("-".join(map(str, parts)))
        report.note(f"store, one by one: {median(lambda turn: awaited(store.words(place('a', turn)), few)):.0f} calls a second")
        piped = median(lambda turn: at_once(report, store.words(place("p", turn)), commands, oks(PIPED)))
        report.note(f"store, in a pipe: {piped:.0f} calls a second")
        for journal in ("delete", "wal"):
            for what, some, batch in (("one by one", few, 1), (f"by {BATCH}", commands, BATCH)):
                rate = median(lambda turn: inserts(place(journal, batch, turn), journal, some, batch))
                report.note(f"sqlite {sqlite3.sqlite_version}, {journal}, {what}: {rate:.0f} inserts a second")
        bytes_of_text = sum(map(len, commands))
        size = os.path.getsize(place("p", 0))
        report.note(f"bytes of a call beside its text: {(size - bytes_of_text) / PIPED:.1f}, of {bytes_of_text / PIPED:.1f}")
        text = b"".join(long_script(LONG))
        write(place("script"), text)
        store.run(place("long"), text)
        for what, *options in (("loaded as a script", "--load", place("script")), ("opened", "--store", place("long")), ("checked", "--check-store", place("long"))):
            report.note(f"{LONG} calls, {what}: {median(lambda turn: seconds_of([store.program, *options])):.2f} s")
        report.count("figures", 10)


def median(figure):
    return sorted(figure(turn) for turn in range(TIMES))[TIMES // 2]


def seconds_of(words):
    started = time.time()
    programs.run(words)
    return time.time() - started


def inserts(path, journal, commands, batch):
    base = sqlite3.connect(path, isolation_level=None)
    base.execute(f"pragma journal_mode={journal}")
    base.execute("pragma synchronous=full")
    base.execute("create table calls (number integer primary key, text blob)")
    started = time.time()
    for first in range(0, len(commands), batch):
        base.execute("begin")
        base.executemany("insert into calls (text) values (?)", [(command,) for command in commands[first : first + batch]])
        base.execute("commit")
    rate = len(commands) / (time.time() - started)
    base.close()
    return rate
