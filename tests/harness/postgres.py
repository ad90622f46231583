"""A server of PostgreSQL on this machine, with a socket in a folder of its own."""

import contextlib
import glob
import os
import subprocess
import sys

from tests.harness import programs
from tests.harness.folders import temporary

# The user and group of nobody: a server does not run as root.
NOBODY = 65534


def python_with_psycopg():
    """A Python that has psycopg2, if PostgreSQL is here too; else None."""
    if not binaries():
        return None
    return next((it for it in (sys.executable, "/usr/bin/python3") if os.path.exists(it) and programs.run([it, "-c", "import psycopg2"]).returncode == 0), None)


def binaries():
    """The folder of the programs of the latest PostgreSQL, or None."""
    found = sorted(glob.glob("/usr/lib/postgresql/*/bin"))
    return found[-1] if found else None


@contextlib.contextmanager
def server():
    """A server at work: the folder of its socket. Its user is camp."""
    as_nobody = [] if os.geteuid() else ["setpriv", f"--reuid={NOBODY}", f"--regid={NOBODY}", "--clear-groups"]
    with temporary("postgres-") as folder:
        if as_nobody:
            os.chown(folder, NOBODY, NOBODY)
        how = {"cwd": folder, "check": True, "stdin": subprocess.DEVNULL, "stdout": subprocess.DEVNULL}
        control = [*as_nobody, f"{binaries()}/pg_ctl", "-D", f"{folder}/data", "-w", "-t", str(programs.TIMEOUT)]
        subprocess.run([*as_nobody, f"{binaries()}/initdb", "-D", f"{folder}/data", "-A", "trust", "-U", "camp"], **how)
        subprocess.run([*control, "-l", f"{folder}/log", "-o", f"-k {folder} -c listen_addresses=''", "start"], **how)
        try:
            yield folder
        finally:
            subprocess.run([*control, "-m", "immediate", "stop"], **how)
