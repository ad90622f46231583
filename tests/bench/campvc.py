"""Seconds of campvc's commands and of its page over this repository's own history, imported from git: alone, with its cache, with its server.

Words: a folder to import into, which is kept, and one that an earlier run has left is measured again; then shown, written, pages name parts,
none: all. A figure is seconds of a processor, of the command and of all that works for it, and after a slash seconds of a clock;
each the least of some runs.
"""

import contextlib
import glob
import os
import re
import resource
import shutil
import sys
import tempfile
import time
import urllib.request

from tests.golden.campvc import PACKAGES, call, prepare, python_with, server
from tests.golden.campvc_cache import server_of
from tests.harness.clients import built_library
from tests.harness.paths import TOP, write_text

SECONDS, GATE = 600, "never"
READ = ("log", "status", "diff", "branches", "annotate README.md", "conflicts")
VIEWS = ("/", "/b/main", "/b/main/patch/{name}", "/b/main/file?path=README.md", "/b/main/conflicts")
OFF, ON = {"CAMPVC_SERVER": "0"}, {"CAMPVC_SERVER": "1"}
ALONE, OFTEN, OTHERS = 3, 5, 8
# Commands that a server runs in its own process, where the others run in a child of it.
RUN_BY_SERVER = ("record -m", "pull -y")
MAKE_OTHERS = """campvc branch {name} && campvc switch {name}
for i in $(seq {count}); do echo $i >>{name}; campvc record -m "{name} $i"; done
campvc switch main"""
# Has a process that a server made write the seconds of a processor that it took: when it ends, nobody is told that.
AT_EXIT = """import os, time
def end(status, exit=os._exit):
    if "CAMPVC_TIMES" in os.environ:
        with open(os.environ["CAMPVC_TIMES"], "a") as file:
            file.write("%f\\n" % time.process_time())
    exit(status)
os._exit = end
"""


def run(report, words):
    library = built_library(report, makes=True)
    if not library or not shutil.which("git"):
        report.skip("the library or git")
        return
    os.environ["CAMP_LIB_DIR"] = library
    sys.path[:0] = PACKAGES
    with tempfile.TemporaryDirectory(prefix="campvc-") as temporary:
        copy = Measured(os.path.abspath(words[0]) if words else temporary)
        if not os.path.exists(f"{copy.folder}/anna"):
            report.note(f"import: {copy.take(f'init >/dev/null && campvc import {TOP}', OFF)} s")
        # A patch that is a whole commit.
        name = [it for it in copy.names("main") if re.fullmatch("[0-9a-f]{40}", it)][40]
        for part in words[1:] or ("shown", "written", "pages"):
            globals()[part](report, copy, name)


class Figure(tuple):
    """Seconds of a processor, and of a clock."""

    def __str__(self):
        return f"{self[0]:.2f}/{self[1]:.2f}"


def least(figures):
    figures = list(figures)
    return Figure(min(it[at] for it in figures) for at in (0, 1))


class Measured:
    """A folder with the copy `anna`."""

    def __init__(self, folder):
        self.folder, self.times = folder, f"{folder}/times"
        prepare(folder)
        os.makedirs(f"{folder}/site", exist_ok=True)
        write_text(f"{folder}/site/sitecustomize.py", AT_EXIT)

    def call(self, command, how):
        # Modules are compiled once, as those of an installed program.
        compiled = {"PYTHONDONTWRITEBYTECODE": "", "PYTHONPYCACHEPREFIX": f"{self.folder}/compiled"}
        return call(self.folder, "anna", command, **how, **compiled, PYTHONPATH=f"{self.folder}/site:{':'.join(PACKAGES)}")

    def take(self, command, how, before=""):
        """The figure of a command; what comes before it is not counted. A command that fails is an error."""
        if before:
            self.call(before, how)
        write_text(self.times, "")
        process = server_of(self.folder) if how is ON else None
        own, started, children = of_process(process), time.perf_counter(), of_children()
        done = self.call(f"campvc {command}", {**how, "CAMPVC_TIMES": self.times})
        seconds = time.perf_counter() - started
        if done.returncode:
            raise RuntimeError(f"{command}: {done.returncode}: {done.stdout[-500:].decode(errors='replace')}")
        used = of_children() - children
        if how is ON:
            used += (of_process(process) if command.startswith(RUN_BY_SERVER) else self.of_maker(process)) - own
        return Figure((used, seconds))

    def of_maker(self, process):
        """Seconds of a processor of a server, and of the process that it made for a command, which ends after that."""
        end = time.monotonic() + 60
        while time.monotonic() < end:
            with open(self.times, encoding="ascii") as file:
                text = file.read()
            if text.endswith("\n"):
                return float(text) + of_process(process)
            time.sleep(0.01)
        raise RuntimeError("no server ran the command")

    def names(self, branch):
        """The patches of a branch, the last one first. A command that fails is an error, with what it says."""
        done = self.call(f"campvc log {branch}", OFF)
        if done.returncode:
            raise RuntimeError(f"log {branch}: {done.returncode}: {done.stdout[-500:].decode(errors='replace')}")
        return re.findall(r"^patch (\S+)", done.stdout.decode(errors="replace"), re.M)

    @contextlib.contextmanager
    def server(self):
        """A server at work, which was started now."""
        with contextlib.suppress(FileNotFoundError):
            os.remove(f"{self.folder}/anna/.camp/server")
        while not os.path.exists(f"{self.folder}/anna/.camp/server"):
            self.call("rm -f .camp/cache.db; campvc status", ON)
            time.sleep(0.2)
        self.call("campvc status", ON)
        yield
        os.remove(f"{self.folder}/anna/.camp/server")


def of_children():
    used = resource.getrusage(resource.RUSAGE_CHILDREN)
    return used.ru_utime + used.ru_stime


def of_process(number):
    """Seconds of a processor that a process has taken, in all of its threads."""
    if number is None:
        return 0.0
    taken = 0.0
    for path in glob.glob(f"/proc/{number}/task/*/schedstat"):
        with open(path, encoding="ascii") as file:
            taken += int(file.read().split()[0]) / 1e9
    return taken


def shown(report, copy, name):
    """Commands that show something."""
    for command in READ:
        words = command.format(name=name)
        alone = least(copy.take(words, OFF, "rm -f .camp/cache.db") for _ in range(ALONE))
        cached = least(copy.take(words, OFF) for _ in range(OFTEN))
        with copy.server():
            served = least(copy.take(words, ON) for _ in range(OFTEN))
            first = least(copy.take(words, ON, "rm -f .camp/cache.db") for _ in range(OFTEN))
        report.note(f"{command.split(' {')[0]}: {alone} s alone, {cached} with the cache, {first} with the server at first, {served} then")
        report.count("figures", 4)


def written(report, copy, _):
    """A record, and a pull of one patch."""
    change = "echo more >>README.md"
    branch = f"other{time.time():.0f}"
    copy.call(MAKE_OTHERS.format(name=branch, count=OTHERS), ON)
    others = [it for it in copy.names(branch) if it.startswith(f"{branch}-")]
    alone = least(copy.take("record -m More", OFF, change) for _ in range(ALONE))
    pulled = least(copy.take(f"pull -y {branch} {others.pop()}", OFF) for _ in range(ALONE))
    with copy.server():
        served = least(copy.take("record -m More", ON, change) for _ in range(OFTEN))
        report.note(f"record: {alone} s alone, {served} with the server")
        served = least(copy.take(f"pull -y {branch} {others.pop()}", ON) for _ in range(OFTEN))
        report.note(f"pull of one patch: {pulled} s alone, {served} with the server")
    report.count("figures", 4)


def pages(report, copy, name):
    """The page's views, the first time and again."""
    python = python_with(", aiohttp, jinja2")
    if not python:
        report.skip("aiohttp and jinja2")
        return
    started = time.perf_counter()
    with server(copy.folder, python) as address:
        process = page_process(copy.folder)
        report.note(f"web: {of_process(process):.2f}/{time.perf_counter() - started:.2f} s until it serves")
        for view in VIEWS:
            first, *more = [fetched(process, address.rstrip("/") + view.format(name=name)) for _ in range(OFTEN + 1)]
            report.note(f"{view}: {first} s at first, then {least(more)}")
            report.count("figures", 2)


def page_process(folder):
    """The process that serves anna's page."""
    for path in glob.glob("/proc/[0-9]*/cmdline"):
        with contextlib.suppress(OSError):
            with open(path, "rb") as file:
                words = file.read().split(b"\0")
            if b"web" in words and os.readlink(f"{os.path.dirname(path)}/cwd") == os.path.realpath(f"{folder}/anna"):
                return int(path.split("/")[2])
    return None


def fetched(process, address):
    own, started = of_process(process), time.perf_counter()
    with urllib.request.urlopen(address, timeout=600) as page:
        page.read()
    return Figure((of_process(process) - own, time.perf_counter() - started))
