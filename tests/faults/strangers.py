"""A store beside files of other programs: a file that is no store, and a log with bytes, stay as they are.

A log is FILE-wal and a journal FILE-journal, as SQLite has them beside a database.

Words: logs, links, journals, databases name parts; none: all.
"""

import os
import sys
import tempfile

from tests.harness import programs
from tests.harness.paths import read, write
from tests.harness.store import NO_STORE, TITLE, calls, encode

try:
    import sqlite3
except ImportError:
    sqlite3 = None

SECONDS, GATE = 5, "after camp_shell"
(CALL,) = calls(1, 9)
STORE = [TITLE, *calls(2)]
# Another process has a database open: it has written to it, says so, and goes on where a line comes.
HOLDER = """
import sqlite3, sys
base = sqlite3.connect(sys.argv[1], isolation_level=None)
base.execute(f"pragma journal_mode = {sys.argv[2]}")
base.execute("create table t (x)")
base.execute("insert into t values ('kept')")
if sys.argv[3] == "writing":
    base.execute("begin immediate")
    base.execute("insert into t values ('not yet kept')")
print("open", flush=True)
sys.stdin.readline()
if sys.argv[3] == "writing":
    base.execute("commit")
print(base.execute("select count(*) from t").fetchone()[0], flush=True)
"""


def run(report, words):
    parts = {"logs": logs, "links": links, "journals": journals, "databases": databases}
    program = programs.path("camp_shell")
    with tempfile.TemporaryDirectory() as folder:
        for name in words or parts:
            os.mkdir(f"{folder}/{name}")
            parts[name](report, program, f"{folder}/{name}")


def files_of(folder):
    """What each file of a folder has, but for what SQLite shares in memory."""
    return {name: read(f"{folder}/{name}") for name in sorted(os.listdir(folder)) if not name.endswith("-shm")}


def logs(report, program, folder):
    """A log beside a store, beside a file that is none, and alone."""
    contents = {"no file": None, "an empty file": b"", "a store": encode(STORE), "a text": b"hello\n", "a database": b"SQLite format 3\0" + bytes(84)}
    for name, content in contents.items():
        for beside in (None, b"", b"x", os.urandom(4096)):
            what = f"{name}, and {'no log' if beside is None else f'a log of {len(beside)} bytes'}"
            log_beside(report, program, folder, what, content, beside)
            report.count("logs")


def log_beside(report, program, folder, what, content, beside):
    path, log = f"{folder}/file", f"{folder}/file-wal"
    put(path, content)
    put(log, beside)
    before = files_of(folder)
    done = programs.run([program, "--store", path], CALL)
    is_store = content is None or content in (b"", encode(STORE))
    report.expect(f"{what}: status", done.returncode, 0 if is_store else 3)
    if not is_store:
        report.expect(f"{what}: the files", files_of(folder), before)
    elif beside:
        report.expect(f"{what}: the log", read(log), beside)
    else:
        report.expect(f"{what}: whether a log is left", os.path.exists(log), False)


def put(path, content):
    if content is not None:
        write(path, content)
    elif os.path.exists(path):
        os.remove(path)


def links(report, program, folder):
    """A store that a link leads to: its log is the one beside it, and nothing is made or removed beside the link."""
    path, link = f"{folder}/file", f"{folder}/link"
    os.symlink(path, link)
    for beside_file in (None, b"", b"x"):
        for beside_link in (None, b"", b"x"):
            write(path, encode(STORE))
            put(f"{path}-wal", beside_file)
            put(f"{link}-wal", beside_link)
            done = programs.run([program, "--store", link], CALL)
            what = f"a link, logs {beside_file} and {beside_link}"
            report.expect_run(what, done, b"ok 3\n")
            left = [read(it) if os.path.exists(it) else None for it in (f"{path}-wal", f"{link}-wal")]
            report.expect(f"{what}: the logs", left, [beside_file or None, beside_link])
            report.count("links")


def journals(report, program, folder):
    """A journal that only SQLite can play back: the file is no store, whatever it has, and both stay. One that begins with a zero
    byte, or has no byte, is over: the store is opened."""
    contents = {"a store": encode(STORE), "a text": b"hello\n"}
    for name, content in contents.items():
        for beside in (b"", bytes(512), b"\xd9\xd5\x05\xf9\x20\xa1\x63\xd7" + bytes(504)):
            path, what = f"{folder}/file", f"{name}, and a journal {beside[:1]}"
            put(path, content)
            put(f"{path}-journal", beside)
            before = files_of(folder)
            done = programs.run([program, "--store", path], CALL)
            if name == "a store" and beside[:1] in (b"", b"\0"):
                report.expect_run(what, done, b"ok 3\n")
                report.expect(f"{what}: the journal", read(f"{path}-journal"), beside)
            else:
                report.expect_run(what, done, b"", f"camp_shell: {path}: {NO_STORE}\n".encode(), 3)
                report.expect(f"{what}: the files", files_of(folder), before)
            report.count("journals")


def databases(report, program, folder):
    """A database of SQLite that another process has open, in each way to keep a journal: refused, and nothing changes."""
    if sqlite3 is None:
        report.skip("databases: this Python has no sqlite3")
        return
    for mode in ("wal", "delete", "truncate", "persist"):
        for state in ("idle", "writing"):
            os.mkdir(f"{folder}/{mode}-{state}")
            database_in_use(report, program, f"{folder}/{mode}-{state}", mode, state)
            report.count("databases")


def database_in_use(report, program, folder, mode, state):
    path, what = f"{folder}/base", f"{mode}, {state}"
    holder = programs.start([sys.executable, "-c", HOLDER, path, mode, state], text=True)
    report.expect(f"{what}: open", holder.stdout.readline(), "open\n")
    before = files_of(folder)
    for word in ("--store", "--check-store"):
        done = programs.run([program, word, path], CALL)
        report.expect(f"{what}: {word}", (done.returncode, done.stdout), (3, b""))
        report.expect(f"{what}: the files behind {word}", files_of(folder), before)
    rows = 2 if state == "writing" else 1
    report.expect(f"{what}: rows", holder.communicate("\n")[0], f"{rows}\n")
    with sqlite3.connect(path) as base:
        report.expect(f"{what}: whole", base.execute("pragma integrity_check").fetchone(), ("ok",))
