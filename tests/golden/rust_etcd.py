"""The log in etcd for Rust: its tests over three members of etcd, and members in Rust and Python at once, while answers are lost.

Words: none. It needs the library for C, cargo, etcd, and the crates of clients/rust/etcd as Debian has them (librust-ureq-dev). The connections
of the members lose, double and delay what they carry; each call is in the log once, at the number that was answered. Then etcd is full.
"""

import glob
import random
import shutil
import sys

from tests.faults.logs import ask, code, replay
from tests.harness import etcd, programs
from tests.harness.clients import Clients
from tests.harness.paths import TOP
from tests.harness.proxy import Proxy

SECONDS, GATE = 90, "after camp_c"
# Sources of crates, as Debian installs them.
SOURCES = "/usr/share/cargo/registry"
CONFIG = ["--config", 'source.crates-io.replace-with="debian"', "--config", f'source.debian.directory="{SOURCES}"']
# So many members in each language, and so many calls of each of them.
MEMBERS, CALLS = 2, 25
PYTHON = """
import sys
from camp import Add
from camp.logs import open_log
from camp.shared import Shared
_, endpoints, prefix, name, count = sys.argv
with Shared(open_log("etcd:%s/%s" % (endpoints, prefix))) as shared:
    shared.sync()
    for at in range(int(count)):
        patch = "%s-%d" % (name, at)
        print(patch, shared.record("main", patch, [Add(patch)]))
    print(len(shared.names("main")), "patches")
"""
# The space of a server, and the bytes of which some fill it.
SPACE, BALLAST = {"ETCD_QUOTA_BACKEND_BYTES": "32000000"}, 1_000_000
FULL = b"x-0: the log refuses the entry: its disk or its space is full, or the entry is too large\n"


def run(report, words):
    with Clients(report) as clients:
        if not clients.has("cargo") or not has_crates(report) or not clients.is_built():
            return
        with etcd.servers(report, clients.folder, **SPACE) as endpoints:
            if endpoints:
                clients.environment["PYTHONPATH"] = f"{TOP}/clients/python"
                program = build(clients, endpoints)
                at_once(clients, program, endpoints)
                full(clients, program, endpoints)


def has_crates(report):
    if glob.glob(f"{SOURCES}/ureq-2.*"):
        return True
    report.skip("crates of Debian (librust-ureq-dev)")
    return False


def build(clients, endpoints):
    """Runs the tests of a copy of the crate, in which cargo may write, and returns its example."""
    shutil.copytree(f"{TOP}/clients/rust", f"{clients.folder}/rust", ignore=shutil.ignore_patterns("target"))
    words = ["--offline", "--quiet", *CONFIG, "--manifest-path", f"{clients.folder}/rust/etcd/Cargo.toml"]
    clients.runs("tests of the log in etcd for Rust", ["cargo", "test", *words], CAMP_ETCD=endpoints)
    clients.runs("its example", ["cargo", "build", "--example", "records", *words])
    return f"{clients.folder}/target/debug/examples/records"


def at_once(clients, program, endpoints):
    """Members in both languages record patches at the same time over one log."""
    report = clients.report
    proxies = [Proxy(it, random.Random(at)) for at, it in enumerate(endpoints.split(","))]
    address = ",".join(it.endpoint for it in proxies)
    words = [[program], [sys.executable, "-c", PYTHON]]
    asked = [[*words[at % 2], address, "both", f"p{at}", str(CALLS)] for at in range(2 * MEMBERS)]
    peers = [programs.start(it, env=clients.environment) for it in asked]
    answered = {}
    for peer in peers:
        out, error = peer.communicate(timeout=programs.TIMEOUT)
        report.expect("a member: status, standard error", (peer.returncode, error), (0, b""))
        answered.update(line.partition(" ")[::2] for line in out.decode().splitlines()[:-1])
    for proxy in proxies:
        proxy.shutdown()
    report.expect("requests lost, late or twice", sum(number for it in proxies for kind, number in it.counts.items() if kind) > 0, True)
    why, _, calls = replay(report, f"etcd:{endpoints}/both", clients.environment)
    patches = [it.split()[2] for it in calls]
    report.expect("the log is read to its end", why, None)
    report.expect("calls, each once", sorted(patches), sorted(f"p{at}-{call}" for at in range(2 * MEMBERS) for call in range(CALLS)))
    report.expect("their numbers", answered, {name: str(number) for number, name in enumerate(patches, 1)})
    report.expect("what Rust reads", clients.runs("a member in Rust", [program, endpoints, "both", "x", "0"]), b"%d patches\n" % len(patches))
    report.count("calls of members in Rust and Python", len(patches))


def full(clients, program, endpoints):
    """The space of etcd is full: a call is refused and not done, and the log is read."""
    try:
        for at in range(100):
            ask(endpoints, "kv/put", {"key": code(f"ballast{at}"), "value": code("x" * BALLAST)})
        clients.report.fail("etcd is not full")
    except OSError:
        found = clients.runs("a member of a full log", [program, endpoints, "both", "x", "1"])
        clients.report.expect("a full log", found, FULL + b"%d patches\n" % (2 * MEMBERS * CALLS))
        clients.report.count("logs that are full")
