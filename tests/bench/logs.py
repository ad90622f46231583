"""Calls a second of members in Python and Rust that share a log over SQLite and over three members of etcd, the longest of them, and a member
that joins.

Words: sqlite, etcd, join, leader name parts; Python, Rust languages; a number: so many calls, in place of 2,000. Each member is a process.
`join` reads a log of fifty times as many calls, and asks a question; `leader` is the longest call while the leader of etcd is killed. It
needs the library for C, and for Rust what golden/rust_etcd needs, but etcd.
"""

import collections
import json
import os
import shutil
import signal
import sys
import time

from tests.faults.logs import leader
from tests.golden.rust_etcd import CONFIG, has_crates
from tests.harness import etcd, programs
from tests.harness.clients import Clients
from tests.harness.folders import temporary
from tests.harness.paths import TOP

SECONDS, GATE = 120, "never"
CALLS, MEMBERS, BATCH, LONG = 2_000, 8, 256, 50
# A log whose repository has room for all.
NEW = "import sys; from camp.logs import open_log, title_with; open_log(sys.argv[1], title_with(16_777_216, 65_536)).close()"
# A member says how long it took to read the log and to answer a question. It asks calls, so many at a time, once it reads a line, and says when
# it began, when it ended, and the seconds of each time.
MEMBER = """
import json, sys, time
from camp.logs import open_log
from camp.shared import Shared
address, name, calls, batch = sys.argv[1], sys.argv[2].encode(), int(sys.argv[3]), int(sys.argv[4])
texts = [(b"record main %s-%d add %s-%d\\n" % (name, at, name, at), b"") for at in range(calls)]
before = time.perf_counter()
shared = Shared(open_log(address))
shared.sync()
shared.names("main")
print("%.3f" % (time.perf_counter() - before), flush=True)
sys.stdin.readline()
began, seconds = time.time(), []
for at in range(0, calls, batch):
    before = time.perf_counter()
    answers = shared.write_all(texts[at:at + batch])
    seconds.append(time.perf_counter() - before)
    assert all(it.startswith(b"ok") for it in answers), answers[:3]
print(json.dumps([began, time.time(), seconds]))
"""
# The command of a member in a language.
Bench = collections.namedtuple("Bench", "report environment language command calls")


def run(report, words):
    parts = {"sqlite": sqlite, "etcd": over_etcd, "join": join, "leader": leader_ends}
    calls = next((int(it) for it in words if it.isdigit()), CALLS)
    with Clients(report) as clients:
        if not clients.is_built():
            return
        environment = {**clients.environment, "PYTHONPATH": f"{TOP}/clients/python", "CAMP_PATIENCE": "300"}
        members = {"Python": lambda: [sys.executable, "-c", MEMBER], "Rust": lambda: built(clients)}
        commands = {name: members[name]() for name in [it for it in words if it in members] or members}
        for name in [it for it in words if it in parts] or parts:
            for language, command in commands.items():
                if command:
                    with temporary("logs-") as folder:
                        parts[name](Bench(report, environment, language, command, calls), folder)


def built(clients):
    """The command of a member in Rust, if this machine has what it is made of."""
    if not clients.has("cargo") or not clients.has_sqlite() or not has_crates(clients.report):
        return None
    shutil.copytree(f"{TOP}/clients/rust", f"{clients.folder}/rust", ignore=shutil.ignore_patterns("target"))
    words = ["--offline", "--quiet", "--release", "--features", "sqlite", *CONFIG, "--manifest-path", f"{clients.folder}/rust/etcd/Cargo.toml"]
    clients.runs("a member in Rust", ["cargo", "build", "--example", "members", *words])
    return [f"{clients.folder}/target/release/examples/members"]


def make(bench, address):
    made = programs.run([sys.executable, "-c", NEW, address], env=bench.environment)
    bench.report.expect(f"{address}: a new log", made.returncode, 0)


def measure(bench, what, address, members, calls, batch, meanwhile=None):
    """Lets members ask calls, so many at a time, and prints what they take together and for one time."""
    make(bench, address)
    words = [str(calls), str(batch)]
    peers = [programs.start([*bench.command, address, f"p{at}", *words], env=bench.environment) for at in range(members)]
    for peer in peers:
        peer.stdout.readline()
    load = os.getloadavg()[0]
    for peer in peers:
        programs.send(peer, b"\n")
    if meanwhile:
        meanwhile()
    found = [json.loads(peer.communicate(timeout=programs.TIMEOUT)[0]) for peer in peers]
    bench.report.expect(f"{what}: members that end", [peer.returncode for peer in peers], [0] * members)
    took = max(it[1] for it in found) - min(it[0] for it in found)
    seconds = sorted(second for it in found for second in it[2])
    middle, late = (1000 * seconds[int(share * (len(seconds) - 1))] for share in (0.5, 0.99))
    bench.report.note(f"{what}, {bench.language}: {members * calls / took:.0f} calls a second; of {batch} at a time half take {middle:.1f} ms, 99 of 100 {late:.1f} ms, "
                      f"the longest {1000 * seconds[-1]:.1f} ms (load {load:.1f})")
    bench.report.count("calls", members * calls)


def sqlite(bench, folder):
    measure(bench, "SQLite, one member", f"sqlite:{folder}/one.db", 1, bench.calls, 1)
    measure(bench, "SQLite, one member", f"sqlite:{folder}/batch.db", 1, 10 * bench.calls, BATCH)
    measure(bench, "SQLite, eight members", f"sqlite:{folder}/eight.db", MEMBERS, bench.calls // MEMBERS, 1)


def over_etcd(bench, folder):
    with etcd.servers(bench.report, folder) as endpoints:
        if endpoints:
            measure(bench, "etcd, eight members", f"etcd:{endpoints}/one", MEMBERS, bench.calls // MEMBERS, 1)
            measure(bench, "etcd, eight members", f"etcd:{endpoints}/batch", MEMBERS, 10 * bench.calls // MEMBERS, BATCH)


def leader_ends(bench, folder):
    with etcd.servers(bench.report, folder) as endpoints:
        if endpoints:

            def end():
                time.sleep(1)
                os.kill(leader(folder, endpoints), signal.SIGKILL)

            measure(bench, "etcd, the leader killed", f"etcd:{endpoints}/one", MEMBERS, bench.calls // MEMBERS, 1, end)


def join(bench, folder):
    address = f"sqlite:{folder}/long.db"
    measure(bench, "SQLite, a long log", address, 1, LONG * bench.calls, BATCH)
    done = programs.run([*bench.command, address, "p", "0", "1"], b"\n", env=bench.environment)
    bench.report.note(f"a member joins after {LONG * bench.calls} calls, {bench.language}: {done.stdout.split()[0].decode()} seconds")
