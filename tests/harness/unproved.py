"""Builds programs without proofs, in a minute or two where a proof takes an hour. `./play` and the tests use it.

The kit's `rt try` compiles a program with run-time checks, runs it once, and removes it: it has no flag to keep it. So
`build` gives it a folder for temporary files, makes a hard link to the program as soon as the linker has put it there,
and lets `rt try` come to its end. What it is given on standard input keeps the program running for a second or more, which is
many looks at that folder. The last line of `rt try` then says that the program ran to its end; if no link was made, or
the line is another one, the build fails with what `rt try` said: a kit that works in another way is noticed at once.
"""

import contextlib
import fcntl
import glob
import os
import re
import shutil
import signal
import subprocess
import sys
import tempfile
import time

from tests.harness.crates import lay_out
from tests.harness.folders import temporary
from tests.harness.paths import TOP, read, read_text, write, write_text

FOLDER = f"{TOP}/out/unproved"
# Seconds between two looks at the folder, and of two looks at the processes of `rt try` one each so many.
PAUSE, LOOKS = 0.02, 50
# Seconds after which a program counts as hanging: beside proofs it gets little of a processor.
TIMEOUT = 7200
# What keeps a program running for two seconds, unless one of its crate does: commands that its input repeats.
ASKED = {"camp_shell": b"tree main\n" * 3_000, "camp": b"tree main\n" * 3_000, "worked": b"table busy\n" + b"repeat 500 0 names main\n" * 20,
         "worked_talks": b"ends talk: 4000000000 99 4000000000 99 0\n" + b"tree main\n" * 3_000}
# The last line of `rt try` where the program ran.
RAN = re.compile(rb"^(?:run=(?!none)|calls=).*proved=no$", re.M)


def program(crate, tell=None):
    """The unproved program of a crate of this repository."""
    return once(crate, lambda path: build(f"{TOP}/crates/{crate}", path, tell=tell))


def once(name, make, sources=()):
    """The program of a name, made unless it is newer than all sources, and some files more."""
    path = f"{FOLDER}/{name}"
    os.makedirs(FOLDER, exist_ok=True)
    with open(f"{path}.lock", "w", encoding="ascii") as lock:
        fcntl.flock(lock, fcntl.LOCK_EX)
        if not is_newer(path, sources):
            make(path)
    return path


def of_page(name, page, given, words=()):
    """The unproved program of the crate that a page shows. What it is given keeps it running while it is built."""

    def make(path):
        with temporary("page-") as folder:
            crate, _ = lay_out(page, folder)
            write(f"{folder}/crates/{crate}/stdin", given)
            build(f"{folder}/crates/{crate}", path, words)

    return once(name, make, [page])


def is_newer(path, more=()):
    """Whether a file is there and newer than each source of the repository, and than some files more."""
    if not os.path.exists(path):
        return False
    sources = glob.iglob(f"{TOP}/crates/*/src/**/*.rt", recursive=True)
    return all(os.path.getmtime(it) < os.path.getmtime(path) for it in [f"{TOP}/crates.txt", *sources, *more])


def build(crate, path, words=(), tell=None):
    """Builds the program of a crate's folder as a file; `tell` is called with the seconds that it takes, again and again."""
    if not shutil.which("rt"):
        sys.exit("the kit's command rt is not on the PATH: see README.md")
    name = os.path.basename(crate)
    busy = ASKED.get(name) or read(f"{crate}/stdin")
    new, started = path + ".new", time.time()
    with contextlib.suppress(FileNotFoundError):
        os.remove(new)
    with temporary("unproved-", os.path.dirname(path)) as folder:
        status, _, said = try_crate(crate, words, busy, folder, new, tell)
    if not os.path.exists(new) or not RAN.search(said):
        sys.exit(f"{said[-4000:].decode(errors='replace')}\n{name}: rt try left no program (status {status}): see tests/harness/unproved.py")
    note_seconds(name, time.time() - started)
    # A source that was changed meanwhile is newer.
    os.utime(new, (started, started))
    os.replace(new, path)


def try_crate(crate, words=(), given=b"", folder=None, link=None, tell=None):
    """Runs the program of a crate once by `rt try`: its status, its output, and what `rt try` says. The program that it makes
    below the folder for temporary files is kept as `link`."""
    started, looks = time.time(), 0
    with tempfile.TemporaryFile() as source, tempfile.TemporaryFile() as out, tempfile.TemporaryFile() as error:
        source.write(given)
        source.seek(0)
        how = {"stdin": source, "stdout": out, "stderr": error, "cwd": crate, "start_new_session": True}
        tried = subprocess.Popen(["rt", "try", "--seconds", str(TIMEOUT), *words], env={**os.environ, "TMPDIR": folder or tempfile.gettempdir()}, **how)
        try:
            while tried.poll() is None:
                time.sleep(PAUSE)
                if link and not os.path.exists(link):
                    for it in glob.glob(f"{folder}/*/*/program"):
                        with contextlib.suppress(FileNotFoundError):
                            os.link(it, link)
                if looks % LOOKS == 0:
                    spare_processors(tried.pid)
                    if tell:
                        tell(time.time() - started)
                looks += 1
        finally:
            if tried.poll() is None:
                os.killpg(tried.pid, signal.SIGTERM)
                tried.wait()
        texts = []
        for it in (out, error):
            it.seek(0)
            texts.append(it.read())
    return tried.returncode, texts[0], texts[1]


def spare_processors(process):
    """Ends the check that `rt try` runs beside its build for hints on names, which takes as long as the build, and gives the
    build the niceness of this process: it runs in a session of its own, and Linux may group processes by sessions."""
    with contextlib.suppress(OSError):
        children = read(f"/proc/{process}/task/{process}/children").split()
        for child in map(int, children):
            if read(f"/proc/{child}/cmdline").split(b"\0")[1:2] == [b"check"]:
                os.kill(child, signal.SIGKILL)
            else:
                write_text(f"/proc/{child}/autogroup", str(os.nice(0)))


def seconds_file(name):
    """The file, of this user on this machine, that has the seconds which the last build of a program took."""
    cache = os.environ.get("XDG_CACHE_HOME") or os.path.expanduser("~/.cache")
    return f"{cache}/camp/{name}.seconds"


def note_seconds(name, seconds):
    with contextlib.suppress(OSError):
        os.makedirs(os.path.dirname(seconds_file(name)), exist_ok=True)
        write_text(seconds_file(name), f"{seconds:.0f}\n")


def last_seconds(name):
    """The seconds that the last build took; None if none is known."""
    with contextlib.suppress(OSError, ValueError):
        return int(read_text(seconds_file(name)))
    return None


class Steps:
    """Says every ten seconds on standard error how far a build is, by what the last one took."""

    def __init__(self, crate):
        self.crate, self.said, self.last = crate, -10.0, last_seconds(crate)

    def __call__(self, seconds):
        if seconds < self.said + 10:
            return
        if self.said < 0:
            known = f"the last time it took {self.last} seconds on this machine" if self.last else "some 100 seconds where the machine has nothing else to do"
            print(f"Building {self.crate} without proofs, once: {known}.", file=sys.stderr)
        self.said = seconds
        print(f"  {seconds:3.0f} s{self.rest(seconds)}", file=sys.stderr, flush=True)

    def rest(self, seconds):
        """How much is left, if that is known."""
        if not self.last:
            return ""
        return f", some {self.last - seconds:.0f} s left" if seconds < self.last else ": longer than the last time"
