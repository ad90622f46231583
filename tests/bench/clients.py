"""Small commands a second that the clients in C, Rust and Python ask, and a pipe: the best of short runs.

Words: pipe: that alone, which needs no library.
"""

import os
import re
import time

from tests.harness import programs
from tests.harness.clients import Clients

SECONDS, GATE = 60, "never"


def run(report, words):
    report.note(f"load {os.getloadavg()[0]:.1f}")
    if words != ["pipe"]:
        with Clients(report) as clients:
            if clients.is_built():
                languages(clients)
    program, question, answer = programs.path("camp_shell"), b"names other\n", b"refused 4 other\n"
    many, fewer = (programs.many(program, it) for it in (300_000, 50_000))
    in_one_go = max(at_once(report, [program], [question] * many, answer * many) for _ in range(3))
    report.note(f"a pipe: {in_one_go:.0f} a second in one go")
    report.note(f"a pipe: {max(awaited([program], [question] * fewer) for _ in range(3)):.0f} a second, each awaited")
    report.count("figures", 2)


def languages(clients):
    if clients.has("cc"):
        print_best(clients, "C", 30, [clients.compile("tests/speed"), "20000", "100000"])
    if clients.has("cargo"):
        manifest = ["--offline", "--quiet", "--release", "--example", "speed", "--manifest-path", "clients/rust/Cargo.toml"]
        clients.runs("cargo build", ["cargo", "build", *manifest])
        print_best(clients, "Rust", 30, [f"{clients.folder}/target/release/examples/speed", "20000"])
    print_best(clients, "Python", 15, ["python3", "clients/python/speed.py", "5000"])


def print_best(clients, language, times, words):
    """The best of each figure that a program prints, as `WHAT NUMBER a second`; short runs are hardly cut up by other work."""
    best = {}
    for _ in range(times):
        for what, rate in re.findall(r"^(.*?) +(\d+) a second$", clients.runs(language, words).decode(), re.M):
            best[what] = max(best.get(what, 0), int(rate))
    for what, rate in best.items():
        clients.report.note(f"{language}: {what} {rate} a second")


def at_once(report, words, commands, wanted):
    """Commands a second of a program that gets all at once."""
    started = time.time()
    found = programs.run(words, b"".join(commands)).stdout
    rate = len(commands) / (time.time() - started)
    report.expect("the answers", found, wanted)
    return rate


def awaited(words, commands):
    """Commands a second, each after the answer to the one before."""
    peer = programs.start(words)
    started = time.time()
    for command in commands:
        os.write(peer.stdin.fileno(), command)
        os.read(peer.stdout.fileno(), 100)
    rate = len(commands) / (time.time() - started)
    peer.communicate(timeout=programs.TIMEOUT)
    return rate
