"""Members of a shared log are paused and killed, its servers stop, its entries change: each answered call is there once, and damage is reported.

Words: kills, servers, entries name parts; a number: so many kills of members, which are some 1,000 calls each. It needs the library for C; without etcd `servers` is
skipped. The members are processes over camp.shared, which record one patch after another and say which number each got.
"""

import base64
import contextlib
import json
import os
import random
import re
import signal
import sqlite3
import sys
import threading
import time
import urllib.request

from tests.harness import etcd, programs
from tests.harness.clients import python_client
from tests.harness.folders import temporary
from tests.harness.paths import read

SECONDS, GATE = 90, "after camp_c"
# How many members run at once, how many are killed, and between which seconds.
MEMBERS, KILLS, LIFE = 4, 12, (0.3, 1.2)
# The leader of etcd is paused for so many seconds.
PAUSE = 6
# Members of etcd are asked so many times: on a machine with other work none may answer for a while.
TIMES = 60
# Members stand still where none was answered for so many seconds. One starves where it was answered less than was waited for while each other
# one was answered so many calls, and that for so many seconds.
STILL, MANY, LONG = 600, 300, 60
# It says where it is when it is asked by a signal. The branch has room for more patches than a fast machine records.
MEMBER = """
import faulthandler, signal, sys
from camp import Add
from camp.logs import open_log, title_with
from camp.shared import Shared
faulthandler.register(signal.SIGUSR1)
shared = Shared(open_log(sys.argv[1], title_with(1_000_000, 256)))
print(shared.sync(), flush=True)
for at in range(1_000_000):
    name = "%s-%d" % (sys.argv[2], at)
    number = shared.record("main", name, [Add(name)])
    print(name, number, flush=True)
"""
# The same, but it asks so many calls at a time.
BATCH = 8
BATCHES = MEMBER.partition("for at in")[0] + f"""
for at in range(0, 1_000_000, {BATCH}):
    names = [b"%s-%d" % (sys.argv[2].encode(), one) for one in range(at, at + {BATCH})]
    for name, answer in zip(names, shared.write_all([(b"record main %s add %s\\n" % (name, name), b"") for name in names])):
        print(name.decode(), answer.split()[1].decode(), flush=True)
"""
# What one session has of a log: why it was read no further, if so; how many entries were read; and the accepted calls.
REPLAY = """
import json, sys
from camp.logs import Damaged, open_log
from camp.shared import Shared, Stopped
shared, why = Shared(open_log(sys.argv[1])), None
try:
    shared.sync()
except (Damaged, Stopped) as error:
    why = str(error)
print(json.dumps([why, shared.entries, [it.command for it in shared.history()]]))
"""
# Two processes with one seat: the second appends an entry of the same number, with another call.
ONE_SEAT = """
import sys
from camp import Add
from camp.logs import open_log
from camp.shared import Shared, Stopped
one, two = (Shared(open_log(sys.argv[1]), seat="0" * 32) for _ in range(2))
one.sync(), two.sync()
one.record("main", "one", [Add("one")])
try:
    two.record("main", "two", [Add("two")])
except Stopped as error:
    print(error, two.names("main"), one.names("main"))
"""


def run(report, words):
    environment = python_client(report)
    if not environment:
        return
    number = next((int(it) for it in words if it.isdigit()), KILLS)
    parts = {"kills": kills, "servers": servers, "entries": entries}
    for name in [it for it in words if it in parts] or parts:
        with temporary("logs-") as folder:
            parts[name](report, folder, environment, number)


class Members:
    """Members of one log, which are killed in the end, and what each was answered. They ask so many calls at a time. `within` are words before
    a command."""

    def __init__(self, address, folder, environment, program=MEMBER, batch=1, within=()):
        self.address, self.folder, self.environment, self.program, self.batch, self.within = address, folder, environment, program, batch, within
        self.peers, self.readers, self.answered = {}, {}, {}
        for _ in range(MEMBERS):
            self.begin()

    def begin(self):
        name = f"p{len(self.readers)}"
        with open(self.errors(name), "wb") as errors:
            words = [*self.within, sys.executable, "-c", self.program, self.address, name]
            self.peers[name] = programs.start(words, env=self.environment, stderr=errors)
        self.readers[name] = threading.Thread(target=self.read, args=(name, self.peers[name].stdout))
        self.readers[name].start()

    def errors(self, name):
        return f"{self.folder}/{name}.errors"

    def read(self, name, lines):
        """Notes what a member is answered, once it has said that it has read the log."""
        if lines.readline():
            self.answered[name] = []
        for line in lines:
            if line.endswith(b"\n"):
                patch, number = line.decode().split()
                self.answered[name].append((patch, int(number)))

    def counts(self):
        """How many calls each member was answered that runs and has read the log."""
        return {name: len(self.answered[name]) for name in self.peers if name in self.answered}

    def wait(self, more):
        """Waits until each member that runs has read the log, and was then answered so many calls. Returns why that does not come, which is
        no matter of how slow the machine is."""
        why = self.until(lambda counts: len(counts) == len(self.peers))
        before = self.counts()
        return why or self.until(lambda counts: all(counts[name] >= before[name] + more for name in counts), before)

    def until(self, is_done, before=None):
        """Waits until the counts are as they are awaited. Returns why not: a member has ended, or starves, or all stand still."""
        began = moved = now = time.monotonic()
        seen = None
        while not is_done(counts := self.counts()):
            moved, seen, now = moved if counts == seen else now, counts, time.monotonic()
            ended = [name for name, peer in self.peers.items() if peer.poll() is not None]
            starves = before and now > began + LONG and sorted(counts[name] - before[name] for name in counts)[1] >= MANY * self.batch
            if ended or starves or now > moved + STILL:
                what = "one has ended" if ended else "one starves" if starves else "all stand still"
                return f"{what}: {counts} after {before}\n{self.told(ended)}"
            time.sleep(0.05)
        return ""

    def told(self, ended):
        """What members say that have ended, or else where all are now."""
        for name in self.peers:
            if not ended:
                self.peers[name].send_signal(signal.SIGUSR1)
        time.sleep(0 if ended else 1)
        return "\n".join(f"{name}: {read(self.errors(name))[-2000:].decode(errors='replace')}" for name in ended or self.peers)

    @contextlib.contextmanager
    def paused(self, name):
        """Stops a member, which may be about to write, for a while."""
        self.peers[name].send_signal(signal.SIGSTOP)
        try:
            yield
        finally:
            self.peers[name].send_signal(signal.SIGCONT)

    def kill(self, name):
        peer = self.peers.pop(name)
        peer.kill()
        peer.wait()
        # What it wrote before counts.
        self.readers[name].join()

    def end(self):
        for name in list(self.peers):
            self.kill(name)


def kills(report, folder, environment, number):
    """Members over SQLite are paused and killed at random moments, and others begin."""
    members, chance = Members(f"sqlite:{folder}/log.db", folder, environment, BATCHES, BATCH), random.Random(number)
    try:
        report.expect("members answer", members.wait(1), "")
        for _ in range(number):
            with members.paused(chance.choice(list(members.peers))):
                time.sleep(chance.uniform(*LIFE))
            members.kill(chance.choice(list(members.peers)))
            members.begin()
            report.count("pauses and kills of members")
        report.expect("members answer after the kills", members.wait(1), "")
    finally:
        members.end()
    check(report, members)


def servers(report, folder, environment, number):
    """The leader of three members of etcd is paused and goes on, then the leader is killed, and then entries are changed."""
    with etcd.servers(report, folder) as endpoints:
        if not endpoints:
            return
        members = Members(f"etcd:{endpoints}/log", folder, environment)
        try:
            report.expect("members answer", members.wait(1), "")
            paused = leader(folder, endpoints)
            os.kill(paused, signal.SIGSTOP)
            time.sleep(PAUSE)
            os.kill(paused, signal.SIGCONT)
            report.count("pauses of the leader")
            report.expect("members answer after the pause", members.wait(2), "")
            os.kill(leader(folder, endpoints), signal.SIGKILL)
            report.count("kills of the leader")
            report.expect("members answer after the leader's end", members.wait(2), "")
        finally:
            members.end()
        check(report, members)
        for path, more in (("kv/put", {"value": "eA=="}), ("kv/deleterange", {})):
            changed(report, endpoints, environment, path, more)


def changed(report, endpoints, environment, path, more):
    """An entry is changed or deleted in etcd: what comes after it is not read, and who asks a call is told."""
    prefix = f"changed-{path.rpartition('/')[2]}"
    address, first, last = f"etcd:{endpoints}/{prefix}", code(f"{prefix}/entries/"), code(f"{prefix}/entries0")
    three = programs.run([sys.executable, "-c", MEMBER.replace("1_000_000", "3"), address, "p"], env=environment)
    keys = ask(endpoints, "kv/range", {"key": first, "range_end": last, "keys_only": True, "sort_target": "CREATE"}, TIMES)["kvs"]
    ask(endpoints, path, {"key": keys[2]["key"], **more}, TIMES)
    done = programs.run([sys.executable, "-c", MEMBER, address, "q"], env=environment)
    why = "an entry was changed or removed: the log is read up to entry 4 alone"
    report.expect(f"{path}: calls before and after", (three.returncode, len(keys), done.returncode, why in done.stderr.decode()), (0, 4, 1, True))
    report.expect(f"{path}: a session", replay(report, address, environment), [why, 4, [f"record main p-{at} add p-{at}" for at in range(3)]])
    report.count("changed logs")


def code(key):
    return base64.b64encode(key.encode()).decode()


def ask(endpoints, path, asked, times=1):
    """The answer of the first member of etcd that gives one; all are asked so many times."""
    for endpoint in times * endpoints.split(","):
        with contextlib.suppress(OSError), urllib.request.urlopen(f"http://{endpoint}/v3/{path}", json.dumps(asked).encode(), timeout=30) as response:
            return json.load(response)
    raise OSError("no member of etcd answers")


def leader(folder, endpoints):
    """The number of the process that leads."""
    for _ in range(600):
        for name, endpoint in zip(("one", "two", "three"), endpoints.split(",")):
            try:
                found = ask(endpoint, "maintenance/status", {})
            except OSError:
                continue
            if found.get("leader") == found["header"]["member_id"]:
                with open(f"{folder}/etcd/{name}.pid", encoding="ascii") as file:
                    return int(file.read())
        time.sleep(0.1)
    raise TimeoutError("no member of etcd leads")


def replay(report, address, environment, within=()):
    done = programs.run([*within, sys.executable, "-c", REPLAY, address], env=environment)
    if not report.expect(f"a session that reads {address}", (done.returncode, done.stderr), (0, b"")):
        return None, 0, []
    return json.loads(done.stdout)


def check(report, members):
    """One session that reads the log has each answered call at its number, no call twice, and of each member at most the calls of one time
    more than were answered."""
    why, _, commands = replay(report, members.address, members.environment, members.within)
    report.expect("the log is read to its end", why, None)
    patches = [it.split()[2] for it in commands]
    lost = wrong = beyond = 0
    for name in members.readers:
        answered = members.answered.get(name, [])
        lost += sum(patch not in set(patches) for patch, _ in answered)
        wrong += sum(patches[number - 1:number] != [patch] for patch, number in answered)
        own = [it for it in patches if it.startswith(f"{name}-")]
        beyond += len(own) > len(answered) + members.batch or own != [f"{name}-{at}" for at in range(len(own))]
    report.count("answered calls", sum(map(len, members.answered.values())))
    for what, number in (("lost", lost), ("wrong replies", wrong), ("twice", len(patches) - len(set(patches))), ("out of order", beyond)):
        report.expect(what, number, 0)
        report.count(what, number)


# What is done to a log of five entries behind its title, and what a session says that reads it then: why it stops, and after how many
# entries; the seats of its entries are all one.
DAMAGED = "an entry was changed or removed: the log is read up to entry {} alone"
CHANGES = {
    "a byte of an entry": ("UPDATE entries SET text = CAST(replace(text, 'record', 'recond') AS BLOB) WHERE at = 3", DAMAGED.format(3), 3),
    "another call": ("UPDATE entries SET text = CAST(replace(text, 'add p', 'add q') AS BLOB) WHERE at = 3", DAMAGED.format(3), 3),
    "an entry deleted": ("DELETE FROM entries WHERE at = 3", DAMAGED.format(3), 3),
    "an entry cut": ("UPDATE entries SET text = substr(text, 1, 45) WHERE at = 3", DAMAGED.format(3), 3),
    "an empty entry": ("UPDATE entries SET text = x'' WHERE at = 5", DAMAGED.format(5), 5),
    "other limits": ("UPDATE entries SET text = CAST(replace(text, 'log 1', 'log 1 catches 9 branches 9') AS BLOB) WHERE at = 0", DAMAGED.format(0), 0),
    "an entry of another program": ("UPDATE entries SET text = x'610a' WHERE at = 3", "a foreign entry at entry 3 of the log", 3),
    "a number skipped": ("UPDATE entries SET text = CAST(replace(substr(text, 1, length(text) - 8), ' 3' || char(10), ' 4' || char(10)) AS BLOB) WHERE at = 3",
                         "a foreign entry at entry 3 of the log", 3),
    "an entry doubled": ("INSERT INTO entries SELECT 6, 'again', text FROM entries WHERE at = 3", DAMAGED.format(6), 6),
    "two entries swapped": ("WITH old AS MATERIALIZED (SELECT * FROM entries) UPDATE entries SET text = (SELECT text FROM old WHERE at = 7 - entries.at) "
                            "WHERE at IN (3, 4)", DAMAGED.format(3), 3),
    "another version": ("UPDATE entries SET text = x'63616d70206c6f6720320a' WHERE at = 0", "no title of a log of camp at entry 0 of the log", 0),
}


def entries(report, folder, environment, number):
    """An entry is changed, deleted or doubled, or two processes have one seat: a session stops there, and shows what stands before."""
    for name, (sql, why, read) in CHANGES.items():
        path = f"{folder}/{re.sub(' ', '-', name)}.db"
        done = programs.run([sys.executable, "-c", MEMBER.replace("1_000_000", "5"), f"sqlite:{path}", "p"], env=environment)
        report.expect(f"{name}: calls", done.stdout, b"0\n" + b"".join(b"p-%d %d\n" % (at, at + 1) for at in range(5)))
        with sqlite3.connect(path) as base:
            base.execute(sql)
        wanted = [f"record main p-{at} add p-{at}" for at in range(min(5, max(0, read - 1)))]
        report.expect(name, replay(report, f"sqlite:{path}", environment), [why, read, wanted])
        report.count("changed logs")
    done = programs.run([sys.executable, "-c", ONE_SEAT, f"sqlite:{folder}/seat.db"], env=environment)
    wanted = b"an entry of another process with this seat at entry 1 of the log [] ['one']\n"
    report.expect_run("two processes with one seat", done, wanted)
    report.count("seats of two processes")
