"""Runs tests side by side, and the merge gate: proofs and tests together, with a line a minute that says where it is."""

import contextlib
import glob
import os
import re
import shutil
import subprocess
import sys
import tempfile
import threading
import time
from concurrent.futures import ThreadPoolExecutor

from packaging import products
from tests import registry
from tests.harness import programs
from tests.harness.crates import below, uses_of
from tests.harness.folders import temporary
from tests.harness.paths import TOP, read, read_text, write_text

# A test counts as hanging where it takes so many times the seconds that it says, and so many seconds at least, and then uses no
# processor for a minute: beside proofs it gets little of one. After four times as long it is ended in any case.
PATIENCE, LEAST, MINUTE, IN_ANY_CASE = 20, 1800, 60, 4
# The niceness of what runs beside the proofs and gives way to them, and of what is ready before the last proof, on which the end of the gate
# waits: two tests in sessions of their own would else leave it two thirds of a processor.
GIVING_WAY, SHARING = 10, 5
# Seconds without a line after which the progress is printed.
QUIET = 50
# The most memory that a crate's proof was seen to take, in GB, with room for the tests beside it.
ROOM = 5
# Two crates of the longest chain, for whose end the whole gate waits: the first one needs hardly any crate outside of it.
ON_THE_CHAIN = ("camp_questions", "camp_talk")
# So many of the last lines of each part that failed are printed once more at the end.
LAST_LINES = 40
# What `rt ci` prints of a crate that is proved, and at its end.
PROVED = re.compile(r"^rt: ([a-z_]+) (?:proved|is kept)")
COUNTS = re.compile(r"^(\d+) passed, (\d+) failed$", re.M)
# The folder of a crate in the gate's tree, or in the copy that `rt ci NAME` makes of it.
IN_A_TREE = re.compile(r".*(?:/gate-\w+/tree|/rt-copy-[\w-]+/repo)/crates/(\w+)")


class Progress:
    """What runs, what is done, what is left, and how long the parts took."""

    def __init__(self, total):
        self.started, self.last, self.lock, self.tree = time.time(), time.time(), threading.Lock(), None
        self.running, self.passed, self.failed, self.left = {}, 0, 0, total
        # What failed, and what it wrote.
        self.failures = []
        # The seconds of each part, and the processor seconds of each process that proves a crate.
        self.seconds, self.proving, self.proved = {}, {}, set()
        threading.Thread(target=self.watch, daemon=True).start()

    def tell(self, text):
        """Prints lines, each after the seconds since the start."""
        with self.lock:
            self.last = time.time()
            print("".join(f"{self.last - self.started:6.0f} s  {line}\n" for line in text.splitlines()), end="", flush=True)

    def watch(self):
        while True:
            time.sleep(1)
            self.note_proofs()
            if time.time() - self.last >= QUIET:
                running = ", ".join(f"{name} ({time.time() - since:.0f} s)" for name, since in sorted(self.running.items()))
                self.tell(f"running: {running}; {len(self.proved)} crates proved, {self.passed} passed, {self.failed} failed, {self.left} parts left")

    def note_proofs(self):
        """Notes the processor seconds of what runs in the folders of the tree's crates: a check, which ends unseen."""
        for process in os.listdir("/proc") if self.tree else ():
            with contextlib.suppress(OSError, IndexError):
                if found := IN_A_TREE.match(os.readlink(f"/proc/{process}/cwd")):
                    times = read(f"/proc/{process}/stat").rpartition(b")")[2].split()[11:13]
                    self.proving[found[1], process] = sum(map(int, times)) / os.sysconf("SC_CLK_TCK")

    def begin(self, name):
        with self.lock:
            self.running[name] = time.time()

    def end(self, name, passed, failed):
        with self.lock:
            self.seconds[name] = time.time() - self.running.pop(name)
            self.passed, self.failed, self.left = self.passed + passed, self.failed + failed, self.left - 1

    def finish(self):
        """Prints once more what failed, then the last line. What was not run has failed."""
        for title, text in self.failures:
            self.tell("\n".join([f"FAILED: {title}", *text.splitlines()[-LAST_LINES:]]))
        failed = self.failed + self.left
        print(f"{self.passed} passed, {failed} failed", flush=True)
        return 1 if failed else 0

    def write_times(self, path):
        """Writes what took how long, as tables of a page."""
        crates = {}
        for (name, _), seconds in self.proving.items():
            crates[name] = crates.get(name, 0) + seconds
        rows = [f"| Part | Seconds |\n|---|---|\n| all: {machine()} | {time.time() - self.started:.0f} |"]
        rows += [f"| {name} | {seconds:.0f} |" for name, seconds in sorted(self.seconds.items(), key=lambda it: -it[1])]
        rows += ["\n| Check | Processor seconds |\n|---|---|"]
        rows += [f"| {name} | {seconds:.0f} |" for name, seconds in sorted(crates.items(), key=lambda it: -it[1])]
        os.makedirs(os.path.dirname(path), exist_ok=True)
        write_text(path, "\n".join([*rows, ""]))


def run_one(test, progress, words=(), niceness=0, title=None):
    """Runs a test in a process of its own, and prints what it wrote when it has ended."""
    title = title or test.name
    progress.begin(title)
    command = ["nice", "-n", str(niceness), sys.executable, "-m", "tests", test.name, "--", *words]
    with tempfile.TemporaryFile() as output:
        how = {"cwd": TOP, "stdin": subprocess.DEVNULL, "stdout": output, "stderr": subprocess.STDOUT, "start_new_session": True}
        ran = programs.start(command, **how)
        # Where the system shares processors by sessions, niceness counts within one: the session gives way too.
        with contextlib.suppress(OSError):
            write_text(f"/proc/{ran.pid}/autogroup", str(niceness))
        try:
            await_end(ran, max(LEAST, PATIENCE * test.seconds))
        except subprocess.TimeoutExpired:
            progress.tell(f"{title}: it hangs, and is ended")
        finally:
            programs.end(ran)
        output.seek(0)
        text = output.read().decode(errors="replace").rstrip()
    is_well = ran.returncode == 0
    if not is_well:
        progress.failures.append((title, text))
    progress.end(title, is_well, not is_well)
    progress.tell(f"{text}\n{title}: {'passed' if is_well else 'FAILED'}, {progress.left} parts left")


def await_end(ran, limit):
    """Waits for the end of a test; `TimeoutExpired` where it hangs."""
    with contextlib.suppress(subprocess.TimeoutExpired):
        return ran.wait(timeout=limit)
    last = time.time() + (IN_ANY_CASE - 1) * limit
    while time.time() < last:
        used = processor_seconds(ran.pid)
        with contextlib.suppress(subprocess.TimeoutExpired):
            return ran.wait(timeout=MINUTE)
        if processor_seconds(ran.pid) < used + 1:
            break
    raise subprocess.TimeoutExpired(ran.args, limit)


def processor_seconds(process):
    """The processor seconds that a process and all that it started have used, also in sessions of their own, as a build does."""
    parents, ticks = {}, {}
    for it in filter(str.isdigit, os.listdir("/proc")):
        with contextlib.suppress(OSError):
            fields = read(f"/proc/{it}/stat").rpartition(b")")[2].split()
            parents[int(it)], ticks[int(it)] = int(fields[1]), sum(map(int, fields[11:15]))
    found = {process}
    while more := {it for it, parent in parents.items() if parent in found} - found:
        found |= more
    return sum(ticks.get(it, 0) for it in found) / os.sysconf("SC_CLK_TCK")


def run_tests(tests):
    """Runs tests, the longest first, as many at once as there are processors."""
    progress = Progress(len(tests))
    with ThreadPoolExecutor(programs.JOBS) as pool:
        list(pool.map(lambda it: run_one(it, progress, it.gate_words), sorted(tests, key=lambda it: -it.seconds)))
    return progress.finish()


def run_all():
    """The merge gate. Proofs need hours of a processor, so what needs none of them runs beside them and gives way to them, what is short
    first; the mutants of a crate are tried once the crates below it are proved, and a test runs once the programs that it needs are."""
    tests = [it for it in registry.all_tests() if it.gate != registry.NEVER]
    (mutants,) = [it for it in tests if it.name == "mutants/proof"]
    beside = sorted((it for it in tests if it.gate == registry.BESIDE and it is not mutants), key=lambda it: it.seconds)
    after = sorted((it for it in tests if it.gate.startswith(registry.AFTER)), key=lambda it: -it.seconds)
    uses = uses_of()
    # What waits for crates, the longest first: the crates, the test, its words, niceness and title.
    waiting = [(set(it.gate.split()[1:]) or set(uses), it, it.gate_words, 0, it.name) for it in after]
    progress = Progress(len(beside) + len(waiting) + 1)
    subprocess.run(["rt", "version"], check=True)
    progress.tell(machine())
    text = products.digest()
    shutil.rmtree(f"{TOP}/out/clients", ignore_errors=True)
    with temporary("gate-") as folder:
        os.environ["CAMP_TREE"] = progress.tree = f"{folder}/tree"
        is_kept = not os.environ.get("CI") and products.unpack_tree(progress.tree)
        for crate in (it for it in uses if glob.glob(f"{TOP}/crates/{it}/must-fail/*.edit")):
            waiting.append((below(crate, uses), mutants, ["--over", progress.tree, crate], GIVING_WAY, f"{mutants.name} {crate}"))
            progress.left += 1
        if is_kept:
            lend_library(progress.tree)
        else:
            products.forget()
            # `rt ci` would prove a crate once more for each mutant of must-fail/, so they are tried beside it, many in one check.
            shutil.copytree(TOP, progress.tree, symlinks=True, ignore=shutil.ignore_patterns(".git", "out", "must-fail", "__pycache__"))
        is_proved = run_around(progress, beside, waiting, uses, is_kept)
        if is_proved and not is_kept:
            keep_products(progress, text)
    progress.write_times(f"{TOP}/out/gate-times.md")
    return progress.finish()


def machine():
    """The machine in words."""
    return f"{len(os.sched_getaffinity(0))} processors, {free_memory():.0f} GB of memory free, load {os.getloadavg()[0]:.1f}"


def free_memory():
    """In GB."""
    return int(re.search(r"^MemAvailable: +(\d+)", read_text("/proc/meminfo"), re.M)[1]) / 1e6


def run_around(progress, beside, waiting, uses, is_kept):
    """Runs tests beside the proofs, and others as soon as what they wait for is proved. Returns whether all crates are."""
    with ThreadPoolExecutor(programs.JOBS) as others, ThreadPoolExecutor(programs.JOBS) as pool:
        for it in beside:
            others.submit(run_one, it, progress, it.gate_words, GIVING_WAY)

        def start_ready(niceness=0):
            for it in [it for it in waiting if it[0] <= progress.proved]:
                waiting.remove(it)
                _, test, words, least, title = it
                # Mutants, which give way for hours, take no place of a test.
                (others if least else pool).submit(run_one, test, progress, words, max(least, niceness), title)

        start_ready()
        if is_kept:
            progress.tell("rt ci: not run, since ./build or an earlier gate has proved this text; CI=1 .ci/run proves from nothing")
            progress.left -= 1
        is_proved = is_kept or prove(progress, lambda: start_ready(SHARING))
        if is_proved:
            progress.proved.update(uses)
        start_ready()
        for *_, title in waiting:
            progress.failures.append((title, "not run, since a crate that it needs is not proved"))
    return is_proved


def lend_library(tree):
    """Puts the library of a kept tree where tests would build it once more."""
    products.lend_library(f"{TOP}/out/clients")
    write_text(f"{TOP}/out/clients.lock", tree)


def keep_products(progress, text):
    """Leaves the programs, the library that a test has built, and the proved tree in out/, so that neither ./build nor the next gate
    proves the same text again. Where the disk has no room for them, it says so, and the verdict is as ever."""
    try:
        products.keep_programs(progress.tree)
        if os.path.exists(f"{TOP}/out/clients/libcamp.so"):
            products.keep_library(f"{TOP}/out/clients")
            products.keep_tree(progress.tree, text)
    except OSError as error:
        products.forget()
        progress.tell(f"nothing is kept for ./build: {error}")


def prove(progress, when_proved):
    """Runs `rt ci` on the tree, prints its lines, and takes over its counts. Whether it passed."""
    progress.begin("rt ci")
    chain = threading.Thread(target=prove_chain, args=(progress,))
    chain.start()
    # Between crates of the chain others are proved, and give way to it.
    ran = start_proofs(progress, ["nice", "-n", str(SHARING), "rt", "ci"], lanes())
    counts, lines = (0, 1), []
    for line in ran.stdout:
        text = line.decode(errors="replace").rstrip()
        progress.tell(text)
        lines.append(text)
        proved, found = PROVED.match(text), COUNTS.match(text)
        if proved:
            progress.proved.add(proved[1])
            when_proved()
        counts = tuple(map(int, found.groups())) if found else counts
    status = ran.wait()
    chain.join()
    passed, failed = counts
    if status:
        progress.failures.append(("rt ci", "\n".join(lines)))
    progress.end("rt ci", passed, max(failed, 1) if status else failed)
    return status == 0


def prove_chain(progress):
    """Proves the longest chain of crates first, each with all processors: `rt ci` of all crates takes over what is proved here, and while
    it waits for that it proves others. What fails here fails there, too, which decides. Where CI=true is set, `rt ci` takes no names."""
    for name in () if os.environ.get("CI") == "true" else ON_THE_CHAIN:
        ran = start_proofs(progress, ["rt", "ci", name], os.environ)
        for line in ran.stdout:
            text = line.decode(errors="replace").rstrip()
            if not COUNTS.match(text):
                progress.tell(text)
        ran.wait()


def start_proofs(progress, words, environment):
    return programs.start(words, cwd=progress.tree, env=environment, stdin=subprocess.DEVNULL, stderr=subprocess.STDOUT)


def lanes():
    """The environment of `rt ci` of all crates. It reckons with twice the memory that a crate takes, so that a large one, for which others
    wait, would wait for smaller ones to end: where memory is there, it is told how many crates to prove side by side, and leaves a
    processor of several to the tests. Where it proves the chain, too, it shares the processors out itself."""
    most = max(2, programs.JOBS - 1)
    is_told = free_memory() > ROOM * most and os.environ.get("CI") != "true"
    return {**os.environ, **({"RT_JOBS": str(most)} if is_told else {})}
