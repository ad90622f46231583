"""Three members of etcd on this machine, with ports of their own."""

import contextlib
import os
import random
import shutil
import socket

from tests.harness import programs
from tests.harness.paths import TOP

# The ports of three members are some after one of these, and so often others are tried where a program has one of them.
PORTS, TRIES = range(20_000, 32_000, 20), 10
# What keeps numbers of PORTS as long as this process runs.
MARKS = []


def miss(report):
    """Notes that etcd is missing, which fails where CI is set: there .ci/setup installs it."""
    if os.environ.get("CI"):
        report.fail("etcd is missing, and CI is set: install it by `apt-get install etcd-server`, or see what .ci/setup says")
    else:
        report.skip("etcd")


@contextlib.contextmanager
def servers(report, folder, **limits):
    """The endpoints of three members, or None if etcd is missing or does not start. Where CI is set that fails; elsewhere a missing
    etcd is skipped. Limits are variables of the environment that etcd knows."""
    if not shutil.which("etcd"):
        miss(report)
        yield None
        return
    how = {}
    for _ in range(TRIES):
        how = {"env": {**os.environ, "ETCD_DIR": f"{folder}/etcd", "ETCD_PORT": str(free_ports()), **limits}}
        started = programs.run([f"{TOP}/clients/etcd", "start"], **how, timeout=2 * programs.TIMEOUT)
        if started.returncode == 0:
            break
        programs.run([f"{TOP}/clients/etcd", "stop"], **how)
    try:
        yield started.stdout.decode().strip() if report.expect("clients/etcd start", started.returncode, 0) else None
    finally:
        programs.run([f"{TOP}/clients/etcd", "stop"], **how)


def free_ports():
    """The number before the ports of three members, none of which another program has: else its members might be taken for these.
    This process keeps the port of that number, so that no other test takes theirs before they do."""
    while True:
        base, mark = random.choice(PORTS), socket.socket()
        with contextlib.suppress(OSError):
            for port in (*range(base + 1, base + 4), *range(base + 11, base + 14)):
                with socket.socket() as tried:
                    tried.bind(("127.0.0.1", port))
            mark.bind(("127.0.0.1", base))
            MARKS.append(mark)
            return base
        mark.close()
