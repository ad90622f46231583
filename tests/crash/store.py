"""Each answered call is there after a kill: at random moments, at each system call, and in all that a crash may leave.

Words: kills, calls, images name parts; all: each part tries all that it can; a number: kills at random moments.
"""

import contextlib
import errno
import itertools
import os
import random
import signal
import tempfile
import time

from tests.harness import programs, tracing
from tests.harness.paths import read, write
from tests.harness.store import TITLE, Store, calls, encode, oks, overwrite

SECONDS, GATE = 30, "after camp_shell"
# Each call after the answer to the one before, or all in one batch.
WAYS = (True, False)
BEFORE, MORE = 2, 3
# After so many kills a store is begun anew, so that each opening takes a few milliseconds.
LIVES = 5
# The most calls in one batch.
BATCH = 256


def run(report, words):
    number = next((int(it) for it in words if it.isdigit()), 300)
    parts = {"kills": lambda store: kills(store, number), "calls": at_calls, "images": images}
    for name in [it for it in words if it in parts] or parts:
        if name != "kills" and not tracing.can_trace():
            report.skip(f"{name}: no program can be traced here")
            continue
        with tempfile.TemporaryDirectory(prefix="crash-") as folder:
            parts[name](Store(report, folder, "all" in words))


def kills(store, number):
    """Killed at random moments: each answered call is there, and one batch at most beyond."""
    for at in range(0, number, LIVES):
        path, is_batch, durable = store.path(f"store-{at}"), at // LIVES % 2 == 1, 0
        for _ in range(LIVES):
            answered, sent = killed(store, path, durable, is_batch)
            found = store.check(path) if os.path.exists(path) else 0
            least, most = durable + answered, durable + sent
            if not isinstance(found, int) or not least <= found <= min(most, least + (BATCH if is_batch else 1)):
                return store.fail(f"a kill behind {at}: {least} were answered and {most} sent, but the store has {found}")
            durable = found
            store.count("kills")
        text = b"".join(calls(durable))
        store.expect("the first calls that were sent, in order", store.run(path, b"keep\n").stdout, b"keep %d\n%s" % (durable, text))
        os.remove(path)


def killed(store, path, first, is_batch):
    """Starts the program, sends it calls, and kills it: how many were answered, and how many were sent."""
    peer, new = store.start(path), calls(random.randrange(1, 400 if is_batch else 12), first)
    answered, sent = b"", 0
    with contextlib.suppress(BrokenPipeError):
        for text in [b"".join(new)] if is_batch else new:
            programs.send(peer, text)
            sent += text.count(b"\n")
            if sent < len(new):
                answered += peer.stdout.readline()
        time.sleep(random.random() * (0.03 if is_batch else 0.004))
    peer.send_signal(signal.SIGKILL)
    answered += peer.stdout.read()
    peer.communicate()
    return answered.count(b"\n"), sent


def prepared(store, what):
    """The path of a store of a few calls, or of none yet, and how many calls it has."""
    path, first = store.path(what), BEFORE if what == "opened" else 0
    if first:
        write(path, encode([TITLE, *calls(first)]))
    elif os.path.exists(path):
        os.remove(path)
    return path, first


def trace(store, path, first, alone, at_call=lambda call: None):
    return tracing.run(store.words(path), calls(MORE, first), alone, at_call)


def is_durable(store, what, path, first, answered, alone):
    """All answered calls are there, and of the others at most those of one batch; and the store goes on."""
    found = store.check(path) if os.path.exists(path) and os.path.getsize(path) > 0 else 0
    if not is_possible(store, what, found, first, answered, alone):
        return
    rest = calls(first + MORE - found, found)
    store.expect(what, store.run(path, b"".join(rest)).stdout, oks(first + MORE, found + 1))
    store.expect(what, read(path), encode([TITLE, *calls(first + MORE)]))


def is_possible(store, what, found, first, answered, alone):
    least = first + answered
    if isinstance(found, int) and least <= found <= min(first + MORE, least + (1 if alone else MORE)):
        return True
    store.fail(f"{what}: {least} calls were answered, but the store has {found}")
    return False


def at_calls(store):
    """Killed before each write, sync and answer (`all`: each system call); each write and sync fails; writes are cut short."""
    for what, alone in itertools.product(("made", "opened"), WAYS):
        kill_at_each(store, what, alone)
        for error in (errno.EIO, errno.ENOSPC) if store.is_all else (errno.EIO,):
            fail_each(store, what, alone, error)
        cut_writes(store, what, alone, 1 if store.is_all else 9)


def in_turn(store, what, alone, is_met, decision):
    """Runs the program again and again: this befalls each call that is met in its turn, and at last none. Yields the turn, the path and
    how many calls the store had, the calls that were met, and what came of the run."""
    for turn in itertools.count():
        path, first = prepared(store, what)
        met = []

        def at_call(call):
            if is_met(call):
                met.append(call)
            return decision if is_met(call) and len(met) == turn + 1 else None

        yield turn, path, first, met, trace(store, path, first, alone, at_call)
        if len(met) <= turn:
            return


def kill_at_each(store, what, alone):
    for turn, path, first, _, (_, out, _, _) in in_turn(store, what, alone, lambda call: store.is_all or call.name is not None, "kill"):
        is_durable(store, f"{what}, killed at call {turn}", path, first, out.count(b"\n"), alone)
        store.count("kills at a system call")


def fail_each(store, what, alone, error):
    """Each write and sync fails in turn. After a sync that fails nothing more is asked of the file."""
    is_met = lambda call: call.name in ("write", "pwrite", "fsync", "fdatasync") and call.file != "error"
    for turn, path, first, met, (status, out, told, _) in in_turn(store, what, alone, is_met, ("fail", error)):
        if len(met) <= turn:
            break
        failed, name = met[turn], f"{what}, {met[turn].name} {turn} fails"
        store.expect(f"{name}: status", (status, told.startswith(b"camp_shell: ")), (3, True))
        if failed.name == "fdatasync":
            store.expect(f"{name}: calls after it", [it for it in met[turn + 1 :] if it.file != "out"], [])
        answered = out.count(b"\n")
        if failed.file != "out":
            store.expect(f"{name}: answers", out, oks(first + answered, first + 1))
        is_durable(store, name, path, first, answered, alone)
        store.count("failed calls")


def cut_writes(store, what, alone, step):
    """Writes of the store are cut short at each length: they are completed all the same."""
    for length in itertools.count(1, step):
        path, first = prepared(store, what)
        cut = []

        def at_call(call):
            if call.name == "pwrite" and len(call.data) > length:
                cut.append(call)
                return "short", length
            return None

        status, out, _, _ = trace(store, path, first, alone, at_call)
        store.expect(f"{what}, by {length} bytes", (status, out.count(b"\n")), (0, MORE))
        store.expect(f"{what}, by {length} bytes", read(path), encode([TITLE, *calls(first + MORE)]))
        store.count("cut writes")
        if not cut:
            break


def images(store):
    """After each write and sync, what a crash may leave: bytes that were not synced may be there or not, in part, or be others;
    the length is anywhere between the synced one and the written one."""
    for what, alone in itertools.product(("made", "opened"), WAYS if store.is_all else (False,)):
        path, first = prepared(store, what)
        synced = read(path) if first else b""
        pending, answered = [], 0
        for call in trace(store, path, first, alone)[3]:
            if call.name == "pwrite":
                pending.append((call.at, call.data))
            elif call.name == "fdatasync":
                for at, data in pending:
                    synced = overwrite(synced, at, data)
                pending = []
            elif call.file == "out":
                answered += call.data.count(b"\n")
            for image in images_after(synced, pending, store.is_all):
                write(path, image)
                found = store.check(path) if image else 0
                is_possible(store, f"{what}: {call}, {image}", found, first, answered, alone)
                store.count("images")
        store.expect(f"{what}: at the end", synced, encode([TITLE, *calls(first + MORE)]))


def images_after(synced, pending, is_all):
    """What a crash may leave of a file that was synced so, and then written to."""
    if not pending:
        return {synced}
    at, data = pending[-1]
    found = {synced}
    for before in images_before(synced, pending[:-1]):
        found.add(before)
        if len(data) == 1:
            found.update(overwrite(before, at, bytes([value])) for value in (range(256) if is_all else (0, 10, 61, 126, 255)))
            continue
        for length in range(len(before), max(len(before), at + len(data)) + 1, 1 if is_all else 3):
            for fill in (data, bytes(len(data)), b"=" * len(data), os.urandom(len(data))):
                found.add(overwrite(before, at, fill)[:length])
        for some in range(0, len(data), 1 if is_all else 7):
            for fill in (b"\0", b"=", b"~"):
                found.add(overwrite(before, at, data[:some] + fill * (len(data) - some)))
                found.add(overwrite(before, at, fill * some + data[some:]))
    return found


def images_before(synced, pending):
    """What a file may have of writes that were not synced: each is there, or not, or half of it, or other bytes."""
    if not pending:
        return [synced]
    at, data = pending[-1]
    return [
        image
        for before in images_before(synced, pending[:-1])
        for image in (before, *(overwrite(before, at, it) for it in (data, data[: len(data) // 2], os.urandom(len(data)))))
    ]
