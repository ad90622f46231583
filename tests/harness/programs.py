"""Starts programs: which file is run, with what limits, and how a peer talks to it."""

import collections
import contextlib
import math
import os
import resource
import signal
import subprocess
from concurrent.futures import ThreadPoolExecutor

from tests.harness import unproved
from tests.harness.paths import TOP

# Seconds after which a program counts as hanging. A machine with other work is slow, so this is no measurement.
TIMEOUT = 1800
# How often processor seconds are measured before a program counts as slow.
TRIES = 5
# How many programs run at once.
JOBS = int(os.environ.get("JOBS", 0)) or len(os.sched_getaffinity(0))


def path(crate, tell=None):
    """The program of a crate: the file that the environment variable of its name gives (CAMP, CAMP_SHELL, WORKED); else the
    proved one in the tree that CAMP_TREE names, or of this one (as a check or ./build left it), unless a source is newer; else
    one that is built without proofs, once, and `tell` is called with the seconds that it takes."""
    named = os.environ.get(crate.upper())
    if named:
        return os.path.abspath(named)
    tree = os.environ.get("CAMP_TREE")
    proved = f"{tree or TOP}/crates/{crate}/out/{crate}"
    if tree or unproved.is_newer(proved):
        return proved
    if unproved.is_newer(f"{TOP}/out/bin/{crate}"):
        return f"{TOP}/out/bin/{crate}"
    return unproved.program(crate, tell=tell)


def run(words, given=b"", **how):
    """Runs a program over bytes, and returns its output, standard error and status."""
    how = {"stdout": subprocess.PIPE, "stderr": subprocess.PIPE, "timeout": TIMEOUT, **how}
    return subprocess.run(words, **({} if "stdin" in how else {"input": given}), **how)


def each(function, things):
    """Yields each thing with what a function makes of it, in order, made as many at once as there are processors. Only a few are made ahead,
    so the things may be endless."""
    with ThreadPoolExecutor(JOBS) as pool:
        ahead = collections.deque()
        for thing in things:
            ahead.append((thing, pool.submit(function, thing)))
            if len(ahead) > 2 * JOBS:
                first, made = ahead.popleft()
                yield first, made.result()
        yield from ((thing, made.result()) for thing, made in ahead)


def start(words, **how):
    """Starts a program, with pipes unless they are given."""
    return subprocess.Popen(words, **{"stdin": subprocess.PIPE, "stdout": subprocess.PIPE, "stderr": subprocess.PIPE, **how})


def send(peer, text):
    peer.stdin.write(text)
    peer.stdin.flush()


def limited(words, **limits):
    """The words of a command under limits of the shell: memory in KiB (`v`), seconds of a processor (`t`)."""
    sets = "".join(f"ulimit -{limit} {value}; " for limit, value in limits.items() if value is not None)
    return ["bash", "-c", f'{sets}exec "$@"', "bash", *words]


def limit_files(size):
    """What makes a file that grows past the size fail a write, or have it written in part."""

    def limit():
        signal.signal(signal.SIGXFSZ, signal.SIG_IGN)
        resource.setrlimit(resource.RLIMIT_FSIZE, (size, size))

    return limit


def used_seconds():
    """Seconds of a processor that all programs took that were started here and have ended."""
    used = resource.getrusage(resource.RUSAGE_CHILDREN)
    return used.ru_utime + used.ru_stime


def is_in_proportion(do, small, large):
    """Whether `do` takes at most twice as many processor seconds for a large size as for a small one, for each unit of size. A busy machine
    makes some runs longer and none shorter, so the least of several counts before a size is too slow."""
    least = {}
    for _ in range(TRIES):
        for size in (small, large):
            before = used_seconds()
            do(size)
            least[size] = min(used_seconds() - before, least.get(size, math.inf))
        if least[large] <= 2 * least[small] * large / small:
            return True
    return False


def end(process):
    """Ends a process that was started here in a session of its own, with all that it started."""
    if process.poll() is None:
        try:
            os.killpg(process.pid, signal.SIGTERM)
            process.wait(timeout=10)
        except (subprocess.TimeoutExpired, ProcessLookupError):
            with contextlib.suppress(ProcessLookupError):
                os.killpg(process.pid, signal.SIGKILL)
    process.wait()


def is_plain(program):
    """Whether a program was proved and has no run-time checks, which take an address space that no limit leaves room for."""
    return run(limited([program], v=1_000_000), b"").returncode == 0


def many(program, count):
    """How many calls a test asks that asks many: a program with run-time checks takes a hundred times as long, so a fiftieth of them."""
    return count if is_plain(program) else count // 50
