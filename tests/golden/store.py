"""A store has the documented bytes: each kind of call, frames, prompts, exports, limits and refused words; 300,000 calls are reopened.

Words: sessions, titles, long name parts. The sessions are those of tests/data/stores.
"""

import os
import tempfile

from tests.harness import golden, programs, sessions
from tests.harness.paths import read, write
from tests.harness.store import NO_STORE, Store, calls, encode, long_script, oks

SECONDS, GATE = 20, "after camp_shell"


def run(report, words):
    parts = {"sessions": lambda store: sessions.play_all(store, "stores", "sessions"), "titles": titles, "long": long}
    for name in words or parts:
        with tempfile.TemporaryDirectory(prefix="store-") as folder:
            parts[name](Store(report, folder))


def titles(store):
    """Texts that are the first of no store, whose files stay as they are."""
    path = store.path("titles")
    for title in (golden.unescape(text) for (text,) in golden.rows("titles")):
        content = encode([title, *calls(1)])
        for words in ((), ("--limits", "catches=2,branches=2")):
            write(path, content)
            store.report.expect_run(f"{title}", store.run(path, calls(1, 1)[0], words), b"", f"camp_shell: {path}: {NO_STORE}\n".encode(), 3)
            store.expect(f"the file of {title}", read(path), content)
        store.count("other titles")


def long(store):
    """Stores of many calls, made in a pipe and opened again: what the pipe takes of a processor is in proportion to the calls."""
    sizes = [programs.many(store.program, it) for it in (65_536, 300_000)]
    is_well = programs.is_in_proportion(lambda number: stored(store, number), *sizes)
    store.expect(f"the time to store {sizes[1]} calls is in proportion to that for {sizes[0]}", is_well, True)
    for number in sizes:
        path, size = store.path(f"long-{number}"), 27 + 13 + sum(map(len, long_script(number))) + 27 * number + 1
        store.expect(f"{number} calls", (store.check(path), os.path.getsize(path)), (number, size))
        store.expect(f"{number} calls, reopened", store.run(path, b"branch last main\n").stdout, b"ok %d\n" % (number + 1))
        store.count("calls", number)


def stored(store, number):
    path = store.path(f"long-{number}")
    if os.path.exists(path):
        os.remove(path)
    store.expect(f"{number} calls", store.run(path, b"".join(long_script(number))).stdout, oks(number))
