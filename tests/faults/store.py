"""A store survives torn, changed and failing files: a batch counts whole or not at all, damage is reported, no file is spoilt.

Words: torn, changed, fails, refused name parts; all: each part tries all that it can.
"""

import os
import shutil
import subprocess
import tempfile

from tests.harness import programs
from tests.harness.paths import read, write
from tests.harness.store import NO_STORE, TITLE, Store, calls, encode, oks

SECONDS, GATE = 25, "after camp_shell"
LONGEST = b"camp store 1 catches 16777216 branches 65536\n"


def run(report, words):
    parts = {"torn": torn, "changed": changed, "fails": fails, "refused": refused}
    for name in [it for it in words if it in parts] or parts:
        with tempfile.TemporaryDirectory(prefix="faults-") as folder:
            os.mkdir(f"{folder}/files")
            parts[name](Store(report, f"{folder}/files", "all" in words))


def torn(store):
    """Each way in which a batch can be torn: it counts whole, or not at all."""
    old, new = [TITLE, *calls(2)], calls(3, 2)
    before, after = encode(old), encode(old + new)
    mark = len(before) - 1
    staged = before + after[mark + 1 :]
    torn_tails(store, before, staged)
    commit_marks(store, before[:mark], staged[mark + 1 :])
    torn_beginnings(store)
    cut_files(store, old, before)


def torn_tails(store, before, staged):
    """So many bytes of the batch are there, and the last ones are any; a new call overwrites them."""
    path = store.path("torn")
    for end in range(len(before), len(staged) + 1):
        for junk in (b"", b"\0" * 7, b"=" * 7, os.urandom(7)) if store.is_all else (b"", os.urandom(7)):
            image = staged[: max(len(before), end - len(junk))] + junk
            write(path, image[:end])
            store.expect(f"torn at {end}", store.check(path), 2)
            store.count("torn batches")
    for end in range(len(before), len(staged) + 1, 7):
        write(path, staged[:end])
        store.expect("over a torn tail", (store.run(path, calls(1, 9)[0]).stdout, store.check(path)), (b"ok 3\n", 3))


def commit_marks(store, head, tail):
    """The byte before a batch decides whether it counts."""
    path = store.path("mark")
    for value in range(0, 256, 1 if store.is_all else 7):
        write(path, head + bytes([value]) + tail)
        store.expect(f"commit mark {value}", store.check(path), 2 if value == ord("~") else 5)
        store.count("commit marks")


def torn_beginnings(store):
    """While a store is made, also one with the longest title: it is begun anew."""
    path = store.path("made")
    for title, words in ((TITLE, ()), (LONGEST, ("--limits", "catches=16777216,branches=65536"))):
        first = b"~" + encode([title])[1:]
        for end in range(len(first) + 1):
            write(path, first[:end])
            store.expect(f"{title} made up to {end}", store.run(path, calls(1)[0], words).stdout, b"ok 1\n")
            store.expect(f"{title} made up to {end}", read(path), encode([title, *calls(1)]))
            store.count("torn beginnings")


def cut_files(store, texts, content):
    """A file that was cut off is a prefix, or refused; it stays as it is."""
    path, sizes = store.path("cut"), [len(encode(texts[:n])) - 1 for n in range(1, 4)]
    for end in range(2, len(content)):
        write(path, content[:end])
        found = store.check(path)
        wanted = [n for n, size in enumerate(sizes) if end - size in (0, 1)]
        if wanted:
            store.expect(f"cut at {end}", found, wanted[0])
        elif isinstance(found, int):
            store.fail(f"cut at {end}: {found} calls are found")
        store.expect(f"cut at {end}: the file", read(path), content[:end])
        store.count("cut files")


def changed(store):
    """Each byte of a small store is changed: that is reported, or nothing else changes."""
    texts = [TITLE, *calls(2), b"branch x main\n"]
    content = encode(texts)
    starts = [len(encode(texts[:n])) - 1 for n in range(len(texts) + 1)]
    for at, byte in enumerate(content):
        bits = range(8) if store.is_all else (0, 5)
        for value in ({byte ^ (1 << bit) for bit in bits} | {ord("~"), ord("=")}) - {byte}:
            changed_byte(store, content, starts, at, value)
    path = store.path("changed")
    for text in (b"nonsense\n", b"record main p0 add g\n", b"tree main\n", b"record  main z add z\n", b"", b"branch y main\nbranch z main\n"):
        # Texts that are no calls, or are refused, though their digests are right.
        write(path, encode([TITLE, *calls(2), text]))
        store.expect(f"text {text!r}", store.check(path), f"camp_shell: {path}: damaged at call 3, byte {starts[3]}")
        store.count("wrong texts")


def changed_byte(store, content, starts, at, value):
    path = store.path("changed")
    write(path, content[:at] + bytes([value]) + content[at + 1 :])
    found = store.check(path)
    record = max((n for n, start in enumerate(starts) if start < at), default=0)
    store.count("changed bytes")
    if at in starts:
        # Any other commit mark is as good, and a `~` ends the file.
        number = starts.index(at) - 1
        end = number if number >= 0 else f"camp_shell: {path}: {NO_STORE}"
        store.expect(f"commit mark {at} {value}", found, end if value == ord("~") else 3)
        return
    damage = f"damaged at call {record}, byte {starts[record]}" if record else NO_STORE
    store.expect(f"byte {at}", found, f"camp_shell: {path}: {damage}")
    if value == content[at] ^ 1:
        image, done = read(path), store.run(path, calls(1, 9)[0])
        store.expect(f"byte {at}: refused, the file as it was", (done.returncode, done.stdout, read(path) == image), (3, b"", True))


def fails(store):
    """The file cannot grow past a size: a write fails, or is cut, at each byte of a batch."""
    path, batch = store.path("fails"), b"".join(calls(3, 1))
    before, grown = encode([TITLE, *calls(1)]), encode([TITLE, *calls(4)])
    for size in [*range(len(before), len(grown), 1 if store.is_all else 5), len(grown)]:
        write(path, before)
        done = store.run(path, batch, preexec_fn=programs.limit_files(size))
        if size < len(grown):
            store.expect(f"full at {size}", (done.returncode, done.stdout, store.check(path)), (3, b"", 1))
            done = store.run(path, batch)
        store.expect(f"room at {size}", (done.returncode, done.stdout, read(path)), (0, oks(4, 2), grown))
        store.count("full files")
    write(path, before)
    peer = store.start(path, preexec_fn=programs.limit_files(len(grown)))
    for n in range(3):
        programs.send(peer, calls(1, 1 + n)[0])
        store.expect("answer", peer.stdout.readline(), b"ok %d\n" % (n + 2))
    out, error = peer.communicate(calls(1, 9)[0])
    store.expect("full after answers", (peer.returncode, out, b"camp_shell: " in error, store.check(path)), (3, b"", True, 4))
    full_disk(store)


def full_disk(store):
    """A disk of 8 KiB, where this process may mount one: each answered call is there, and calls go on when there is room."""
    disk = store.path("disk")
    os.mkdir(disk)
    if subprocess.run(["mount", "-t", "tmpfs", "-o", "size=8k", "none", disk], stderr=subprocess.DEVNULL).returncode != 0:
        return store.report.skip("a full disk: no disk can be mounted here")
    try:
        path, ballast = f"{disk}/store", f"{disk}/ballast"
        write(ballast, bytes(4096))
        done = store.run(path, b"".join(calls(256)))
        answered = done.stdout.count(b"\n")
        error = b"camp_shell: %s: No space left on device (os error 28)\n" % path.encode()
        store.expect("full disk", (done.returncode, done.stderr, store.check(path)), (3, error, answered))
        os.remove(ballast)
        store.expect("room again", (store.run(path, calls(1, 500)[0]).stdout, store.check(path)), (b"ok %d\n" % (answered + 1), answered + 1))
        store.count("full disks")
    finally:
        subprocess.run(["umount", disk], check=True)


def refused(store):
    """A store that another process has, or that may not be written, stays as it is. (What is no store: tests/data/stores.)"""
    path = store.path("store")
    store.run(path, b"".join(calls(2)))
    in_use(store, path)
    read_only(store, path)
    store.expect("files beside it", os.listdir(store.folder), ["store"])


def in_use(store, path):
    """A second process is refused while one has the store; a check reads it."""
    peer = store.start(path)
    programs.send(peer, calls(1, 2)[0])
    store.expect("the first process", peer.stdout.readline(), b"ok 3\n")
    store.report.expect_run("the second process", store.run(path, calls(1)[0]), b"", f"camp_shell: {path}: in use\n".encode(), 3)
    store.expect("checked while it runs", store.check(path), 3)
    peer.communicate()
    store.count("refused files")


def become_nobody():
    os.setgroups([])
    os.setgid(65534)
    os.setuid(65534)


def read_only(store, path):
    """A file that may not be written; root may write each file, so it becomes nobody."""
    if os.getuid() != 0:
        return store.report.skip("a read-only file: only root can become another user")
    above = os.path.dirname(store.folder)
    for folder in (above, store.folder):
        os.chmod(folder, 0o755)
    program = shutil.copy(store.program, f"{above}/program")
    os.chmod(program, 0o755)
    os.chmod(path, 0o444)
    content = read(path)
    done = programs.run([program, "--store", path], calls(1, 9)[0], preexec_fn=become_nobody)
    store.expect("read-only", (done.returncode, done.stdout, b"ermission denied" in done.stderr, read(path)), (3, b"", True, content))
    store.count("refused files")
