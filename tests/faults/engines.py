"""Engines of a log that are slow, full, foreign, or lose and double answers: each call is done once, or a named error says why not.

Words: slow, foreign, lost, large, full name parts. It needs the library for C; without etcd its parts are skipped.
"""

import random
import sqlite3
import sys

from tests.faults.logs import MEMBER, Members, ask, check, code, replay
from tests.harness import etcd, programs
from tests.harness.clients import python_client
from tests.harness.folders import temporary
from tests.harness.proxy import FATES, Proxy

SECONDS, GATE = 60, "never"
# Each entry keeps the file locked for some tenths of a second, as a slow disk does. So many calls each member is answered, while none is
# answered more than so many: they take turns.
SLOW = MEMBER.replace("shared = Shared(open_log(sys.argv[1], title_with(1_000_000, 256)))", """
import random, time
log = open_log(sys.argv[1])
log._base().create_function("nap", 0, lambda: time.sleep(random.uniform(0.1, 0.4)))
log._base().execute("CREATE TEMP TRIGGER slow AFTER INSERT ON main.entries BEGIN SELECT nap(); END")
shared = Shared(log)""")
LEAST, MOST = 3, 40
# So many calls each member is answered while answers are lost.
CALLS = 50
# A member asks calls of 100 kB until the log refuses one, then waits for a line, and asks this one again.
FULL = """
import sys
from camp import Add, Edit
from camp.logs import SqliteLog, open_log
from camp.shared import LogRefused, Shared
log = open_log(sys.argv[1])
shared = Shared(log)
shared.sync()

def limit(pages):
    if isinstance(log, SqliteLog):
        log._base().execute("PRAGMA max_page_count = %d" % pages)

def record(at, kilobytes=100):
    return shared.record("main", "p%d" % at, [Add("f%d" % at), Edit("f%d" % at, 1, [], ["x" * 999] * kilobytes)])

limit(200)
try:
    while True:
        record(shared.accepted)
except LogRefused as error:
    print(error, flush=True)
count = shared.sync()
sys.stdin.readline()
limit(1_000_000)
print(count == shared.sync(), record(count) == count + 1, shared.names("main") == ["p%d" % at for at in range(count + 1)], flush=True)
"""
# What a member says of a call that is larger than the engine takes, and the number of the next one.
LARGE = FULL.partition("limit(200)")[0] + """
for kilobytes in map(int, sys.argv[2].split(",")):
    try:
        print(record(shared.accepted, kilobytes))
    except LogRefused as error:
        print(error)
"""
# A member has read an entry that is gone afterwards.
CUT = FULL.partition("limit(200)")[0] + """
from camp.logs import Damaged
print(record(0, 1) and record(1, 1), flush=True)
sys.stdin.readline()
try:
    shared.sync()
except Damaged as error:
    print(error)
print(shared.names("main"))
"""
REFUSED = b"the log refuses the entry: its disk or its space is full, or the entry is too large\n"
# The space of a server of etcd and the largest request that it takes; of the space another program has so many bytes.
LIMITS, BALLAST = {"ETCD_QUOTA_BACKEND_BYTES": "3000000", "ETCD_MAX_REQUEST_BYTES": "400000"}, 1_200_000


def run(report, words):
    environment = python_client(report)
    if not environment:
        return
    # Where etcd was full it no longer knows how entries came.
    parts = {"slow": slow, "foreign": foreign, "lost": lost, "large": large, "full": full}
    with temporary("engines-") as folder, etcd.servers(report, folder, **LIMITS) as endpoints:
        for name in words or parts:
            parts[name](report, folder, environment, endpoints)


def slow(report, folder, environment, _):
    """Members over SQLite whose every entry takes long: they take turns."""
    members = Members(f"sqlite:{folder}/slow.db", folder, environment, SLOW)
    try:
        report.expect("members answer over a slow log", members.wait(0), "")
        before = members.counts()
        report.expect("each member has its turn", members.wait(LEAST), "")
        most = max(number - before[name] for name, number in members.counts().items())
        report.expect(f"none has more than {MOST}", most <= MOST or most, True)
    finally:
        members.end()
    check(report, members)


def full(report, folder, environment, endpoints):
    """A log is full: the call is refused and not done, the log is read, and once there is room the next call is done."""
    fills(report, environment, f"sqlite:{folder}/full.db", lambda: None)
    if endpoints:
        for at in range(BALLAST // 300_000):
            ask(endpoints, "kv/put", {"key": code(f"ballast{at}"), "value": code("x" * 300_000)})
        fills(report, environment, f"etcd:{endpoints}/full", lambda: make_room(endpoints))


def fills(report, environment, address, make_room_for):
    member = programs.start([sys.executable, "-c", FULL, address], env=environment)
    engine = address.partition(":")[0]
    report.expect(f"{engine}: a full log", member.stdout.readline(), REFUSED)
    why, entries, calls = replay(report, address, environment)
    report.expect(f"{engine}: a full log is read", (why, entries), (None, len(calls) + 1))
    make_room_for()
    out, error = member.communicate(b"\n", timeout=programs.TIMEOUT)
    report.expect(f"{engine}: room is made", (out, error, member.returncode), (b"True True True\n", b"", 0))
    report.expect(f"{engine}: calls", len(replay(report, address, environment)[2]), len(calls) + 1)
    report.count("logs that are full")


def make_room(endpoints):
    """Removes what another program has in etcd, with what it remembers of it: its entries are read as they are from then on."""
    revision = ask(endpoints, "kv/deleterange", {"key": code("ballast"), "range_end": code("ballasu")})["header"]["revision"]
    ask(endpoints, "kv/compaction", {"revision": revision, "physical": True})
    for endpoint in endpoints.split(","):
        ask(endpoint, "maintenance/defragment", {})
    for alarm in ask(endpoints, "maintenance/alarm", {"action": "GET"})["alarms"]:
        ask(endpoints, "maintenance/alarm", {"action": "DEACTIVATE", **alarm})


def large(report, folder, environment, endpoints):
    """A call that is larger than the engine takes, or than an entry may be, is refused, and the next one is done."""
    for address, sizes, answers in ((f"sqlite:{folder}/large.db", "1500,10", REFUSED + b"1\n"),
                                    (f"etcd:{endpoints}/large", "1500,1000,500,10,450,20", 3 * REFUSED + b"1\n" + REFUSED + b"2\n")):
        if endpoints or address.startswith("sqlite"):
            done = programs.run([sys.executable, "-c", LARGE, address, sizes], env=environment)
            report.expect_run(f"large calls over {address.partition(':')[0]}", done, answers)
            report.count("calls that are too large", answers.count(REFUSED))


def lost(report, folder, environment, endpoints):
    """Requests and answers of etcd are lost, come late or twice: each answered call is in the log once."""
    if not endpoints:
        return
    proxies = [Proxy(endpoint, random.Random(at)) for at, endpoint in enumerate(endpoints.split(","))]
    members = Members(f"etcd:{','.join(it.endpoint for it in proxies)}/lost", folder, environment)
    try:
        report.expect("members answer over lost answers", members.wait(CALLS), "")
    finally:
        members.end()
        for proxy in proxies:
            proxy.shutdown()
    members.address = f"etcd:{endpoints}/lost"
    check(report, members)
    for kind in [*FATES, "streams cut"]:
        number = sum(it.counts[kind] for it in proxies)
        report.expect(f"{kind} > 0", number > 0, True)
        report.count(kind, number)


def foreign(report, folder, environment, endpoints):
    """A log whose first entry is of another program, or whose last entries are gone: a session says so and reads no further."""
    if endpoints:
        ask(endpoints, "kv/put", {"key": code("foreign/entries/notes"), "value": code("something else\n")})
        found = replay(report, f"etcd:{endpoints}/foreign", environment)
        report.expect("etcd: another program", found, ["no title of a log of camp at entry 0 of the log", 0, []])
        report.count("logs of other programs")
    path = f"{folder}/cut.db"
    member = programs.start([sys.executable, "-c", CUT, f"sqlite:{path}"], env=environment)
    report.expect("a log before it is cut", member.stdout.readline(), b"2\n")
    with sqlite3.connect(path) as base:
        base.execute("DELETE FROM entries WHERE at = 2")
    out, error = member.communicate(b"\n", timeout=programs.TIMEOUT)
    wanted = b"an entry was changed or removed: the log is read up to entry 2 alone\n['p0', 'p1']\n"
    report.expect("a log that is cut", (out, error, member.returncode), (wanted, b"", 0))
    report.count("logs that are cut")
