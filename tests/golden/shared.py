"""Terminals that share a history over a log: those of docs/shared.md side by side, JSON, pictures, and logs that can't be had.

Words: none. It needs the library for C; with etcd installed a history is shared over three members of it, too, which are stopped then.
"""

import json
import os
import re
import sqlite3
import sys

from tests.harness import etcd, programs
from tests.harness.clients import python_client
from tests.harness.folders import temporary
from tests.harness.paths import TOP, read_text, write_text
from tests.harness.terminal import run_together

SECONDS, GATE = 60, "after camp_c"
PAGE = f"{TOP}/docs/shared.md"
# What is said once a log answers again, of a call that was sent before.
LATE = b"the log answers again\nread from the log: 9 record main late add late\nnames 7\nstart\ndishes\nrye\nrolls\ndecided\nmore\nlate\n"
CAMP = [sys.executable, "-m", "camp"]
# Addresses that can't be opened, and what is said of them.
WRONG = {
    "ftp:notes": "no address of a log: 'ftp:notes'; write sqlite:PATH, etcd:HOST:PORT[,HOST:PORT ..]/PREFIX or postgres:DSN",
    "sqlite:none/at/all": "unable to open database file",
    "sqlite:text": "text is a file of another program",
    "sqlite:other.db": "other.db is a file of another program",
    "sqlite:foreign.db": "no title of a log of camp at entry 0 of the log",
    "etcd:127.0.0.1:1/notes": "no endpoint of etcd answers",
}


def run(report, words):
    with temporary("shared-") as folder:
        environment = python_client(report, CAMP_PATIENCE="120", HOME=folder, TERM="xterm", NO_COLOR="1", LC_ALL="C.UTF-8")
        if not environment:
            return
        for text in re.findall(r"^```terminals\n(.*?)^```$", read_text(PAGE), re.M | re.S):
            report.expect("docs/shared.md", run_together(text, environment, folder), [])
            report.count("lines of two terminals", text.count("\n"))
        page_is_short(report)
        over_sqlite(report, environment, folder)
        from_a_file(report, environment, folder)
        wrong_addresses(report, environment, folder)
        with etcd.servers(report, folder) as endpoints:
            if endpoints:
                over_etcd(report, environment, folder, endpoints)


def page_is_short(report):
    """The page has at most 700 words beside its session."""
    words = re.sub(r"^```.*?^```$", "", read_text(PAGE), flags=re.M | re.S).split()
    report.expect("words of docs/shared.md", len(words) <= 700 or len(words), True)


def ask(environment, folder, address, text, *options):
    return programs.run([*CAMP, "shell", "--log", address, *options], text, env=environment, cwd=folder)


def over_sqlite(report, environment, folder):
    """The history of the page is asked in JSON and drawn; a command is answered where it stands, and `why` says why it was not done."""
    done = ask(environment, folder, "sqlite:notes.db", b"names main\nrecord main start add x\nwhy\nrecord main more add x\nquit it\n", "--json")
    answers = [json.loads(line) for line in done.stdout.splitlines()]
    report.expect("shell --json: status", (done.returncode, done.stderr), (0, b""))
    report.expect("names", answers[0]["names"], ["start", "dishes", "rye", "rolls", "decided"])
    report.expect("refusal", (answers[1], answers[2]["lines"][1]), ({"answer": "refused", "number": 6, "names": ["start"]}, ">record main start add x"))
    report.expect("call and fault", answers[3:], [{"answer": "ok", "number": 8}, {"answer": "fault", "line": 1, "kind": "unknown command"}])
    done = programs.run([*CAMP, "graph", "main", "--log", "sqlite:notes.db"], env=environment, cwd=folder)
    report.expect("graph --log", ("main: 6 patches, 1 conflict, 0 unresolved" in done.stdout.decode(), done.returncode), (True, 0))
    locked(report, environment, folder)
    done = programs.run([*CAMP, "shell", "--log", "sqlite:notes.db", "--store", "kept"], env=environment, cwd=folder)
    report.expect("--log and --store", (done.returncode, b"--log goes with neither --store nor --load" in done.stderr), (2, True))
    report.count("conversations", 2)


def locked(report, environment, folder):
    """While another process holds the file it is said that nobody knows what comes of a call; afterwards it is there, once."""
    with sqlite3.connect(f"{folder}/notes.db", isolation_level=None) as base:
        base.execute("BEGIN IMMEDIATE")
        # It is held for longer than that is waited for.
        peer = programs.start([*CAMP, "shell", "--log", "sqlite:notes.db"], env={**environment, "CAMP_PATIENCE": "15"}, cwd=folder)
        programs.send(peer, b"record main late add late\n")
        said = peer.stdout.readline()
        base.execute("ROLLBACK")
    report.expect("a log that is held", said[:52], b"the log does not answer: the call may be done, or ma")
    out, error = peer.communicate(b"names main\nbranches\n", timeout=programs.TIMEOUT)
    report.expect("what it says then", (error, out.split(b"branches")[0]), (b"", LATE))
    report.count("logs that are held")


def from_a_file(report, environment, folder):
    """What was read of a log is kept in a file, from which a member starts: it reads the log from there on. A file of another log is
    refused."""
    log, kept = "sqlite:started.db", ("--kept", "started.kept")
    first = ask(environment, folder, log, b"record main one add one\nrecord main two add two\nrecord main three add three\n", *kept)
    report.expect_run("a log that is kept", first, b"ok 1\nok 2\nok 3\n")
    report.expect_run("another member", ask(environment, folder, log, b"record main four add four\n"), b"ok 4\n")
    with sqlite3.connect(f"{folder}/started.db") as base:
        base.execute("UPDATE entries SET text = ? WHERE at = 1", (b"something else\n",))
    # The entry before the last one that was kept has to be whole, since the last one's seal covers it; those before it are not read.
    later = ask(environment, folder, log, b"names main\nrecord main five add five\n", *kept)
    report.expect_run("a member that starts from the file", later, b"names 4\none\ntwo\nthree\nfour\nok 5\n")
    without = ask(environment, folder, log, b"names main\n")
    report.expect("a member that reads all of it", (without.returncode, b"at entry 1 of the log" in without.stderr), (3, True))
    other = ask(environment, folder, "sqlite:notes.db", b"names main\n", *kept)
    report.expect("a file of another log", (other.returncode, b"another one than that which was read before" in other.stderr), (3, True))
    report.count("members that start from a file", 3)


def wrong_addresses(report, environment, folder):
    """A log that can't be opened, or is of another program, is said and left as it is."""
    write_text(f"{folder}/text", "a file of text, which is long enough to be none of SQLite's\n")
    with sqlite3.connect(f"{folder}/other.db") as base:
        base.execute("CREATE TABLE notes (text)")
    with sqlite3.connect(f"{folder}/foreign.db") as base:
        base.execute("CREATE TABLE entries (at INTEGER PRIMARY KEY, tag TEXT UNIQUE NOT NULL, text BLOB NOT NULL)")
        base.execute("INSERT INTO entries VALUES (0, 'log', ?)", (b"something else\n",))
    for address, why in WRONG.items():
        done = ask(environment, folder, address, b"names main\n")
        report.expect_run(address, done, b"", f"camp: the log {address}: {why}\n".encode(), 3)
        report.count("logs that can't be had")
    report.expect("the file of text", read_text(f"{folder}/text")[:14], "a file of text")


def over_etcd(report, environment, folder, endpoints):
    """Two conversations share a history over etcd; when its members are stopped, questions are answered, and calls are not sent."""
    address = f"etcd:{endpoints}/shared-terminals"
    peer = programs.start([*CAMP, "shell", "--log", address], env=environment, cwd=folder)
    programs.send(peer, b"record main start add f\n")
    report.expect("a call over etcd", peer.stdout.readline(), b"ok 1\n")
    report.expect("another process reads it", ask(environment, folder, address, b"names main\n").stdout, b"names 1\nstart\n")
    programs.run([f"{TOP}/clients/etcd", "stop"], env={**os.environ, "ETCD_DIR": f"{folder}/etcd"})
    out, error = peer.communicate(b"names main\nrecord main more add g\nnames main\n", timeout=programs.TIMEOUT)
    lines = out.decode().splitlines()
    report.expect("etcd is away", (lines[0], lines[1:3], error), ("the log does not answer: this is what was read of it before", ["names 1", "start"], b""))
    report.expect("a call is not sent", lines[3], "the log does not answer: nothing is done. Ask again when it is there; questions are answered at what was read.")
    report.expect("questions after it", lines[4:], ["names 1", "start"])
    report.count("conversations", 2)
