"""Processes that share one history over a log are answered as one session that replays the log; planted wrong ones are found.

Words: sqlite, etcd, postgres name parts; none: all. A part whose engine is not installed is skipped. The processes are those
of camp.shared, in clients/python; the library is found as golden/clients finds it.
"""

import re
import sys
from concurrent.futures import ThreadPoolExecutor

from tests.harness import programs
from tests.harness.clients import python_client
from tests.harness.etcd import servers
from tests.harness.folders import temporary
from tests.harness.paths import TOP
from tests.harness.postgres import python_with_psycopg, server

SECONDS, GATE = 25, "after camp_c"
CHECK = f"{TOP}/clients/python/check_members.py"
# Members that are wrong in one way each, which the check has to find.
PLANTED = ("new-tag", "early", "stale", "skips", "twice")
# A wrong member is not always wrong where it is seen, less so on a busy machine, so it gets so many runs at most.
RUNS = 40
# What is counted of a run.
COUNTS = re.compile(rb"(?P<answers>\d+) answers, .* (?P<late_appends>\d+) late, (?P<entries_twice>\d+) entries twice")


def run(report, words):
    parts = {"sqlite": sqlite, "etcd": etcd, "postgres": postgres}
    environment = python_client(report)
    if not environment:
        return
    with temporary("members-") as folder:
        for name in words or parts:
            parts[name](report, folder, environment)


def sqlite(report, folder, environment):
    """Four members of a log in a file, and each of the planted ones with two others."""

    def try_planted(wrong):
        runs = (check(f"sqlite:{folder}/{wrong}{at}.db", environment, 3, 25, at, "--wrong", wrong) for at in range(RUNS))
        report.expect(f"{wrong}: found", any(done.returncode == 0 for done in runs), True)
        report.count("planted members")

    with ThreadPoolExecutor(programs.JOBS) as pool:
        right = pool.submit(check, f"sqlite:{folder}/right.db", environment, 4, 40, 1)
        list(pool.map(try_planted, PLANTED))
        agrees(report, "sqlite", right.result())


def etcd(report, folder, environment):
    """Three members of a log in three servers on this machine."""
    with servers(report, folder) as endpoints:
        if endpoints:
            agrees(report, "etcd", check(f"etcd:{endpoints}/right", environment, 3, 75, 1))


def postgres(report, folder, environment):
    """Three members of a log in one server on this machine."""
    python = python_with_psycopg()
    if not python:
        report.skip("PostgreSQL with psycopg2")
        return
    with server() as socket:
        agrees(report, "postgres", check(f"postgres:host={socket} user=camp dbname=postgres", environment, 3, 75, 1, python=python))


def check(log, environment, members, calls, seed, *words, python=sys.executable):
    return programs.run([python, CHECK, log, "--members", str(members), "--calls", str(calls), "--seed", str(seed), *words], env=environment)


def agrees(report, name, done):
    """The members of a run were answered as the replay of their log, of which some entries came late and some twice."""
    found = COUNTS.search(done.stdout)
    if done.returncode or not found:
        return report.fail(f"{name}: status {done.returncode}:\n{(done.stdout + done.stderr).decode(errors='replace')[-3000:]}")
    for what, number in found.groupdict().items():
        report.expect(f"{name}: {what} > 0", int(number) > 0, True)
        report.count(what.replace("_", " "), int(number))
    report.count("right members")
