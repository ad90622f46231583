"""What a test found: how many things of each kind it tried, what is wrong, and what was skipped."""

import difflib
import os
import threading
import time

# A test prints at most so many failures, and of each so many lines of a difference and so many characters of a line.
MOST_FAILURES, MOST_LINES, MOST_CHARACTERS = 20, 12, 200


class Report:
    """Collects the failures of one test; threads may share it."""

    def __init__(self, name):
        self.name, self.counts, self.failures, self.skips = name, {}, [], []
        self.started, self.lock = time.time(), threading.Lock()

    def count(self, what, number=1):
        """Adds to the number of things of a kind that were tried; the last line of the test prints the sums."""
        with self.lock:
            self.counts[what] = self.counts.get(what, 0) + number

    def fail(self, what):
        with self.lock:
            self.failures.append(what)

    def expect(self, what, found, wanted):
        """Fails unless both are equal; says how they differ."""
        if found != wanted:
            self.fail(f"{what}: {difference(wanted, found)}")
        return found == wanted

    def expect_run(self, what, done, output, error=b"", status=0):
        """Fails unless a completed process wrote this output and this error, and ended with this status."""
        self.expect(f"{what}: output", done.stdout, output)
        self.expect(f"{what}: standard error", done.stderr, error)
        self.expect(f"{what}: status", done.returncode, status)

    def skip(self, what):
        """Notes what this machine lacks, so that a part was not run."""
        with self.lock:
            self.skips.append(what)

    def note(self, text):
        """Prints a line at once, for tests that take minutes and for measurements."""
        print(f"{self.name}: {text}", flush=True)

    def finish(self, needs_counts=True):
        """Prints the failures and one line with the counts. Returns the exit status: 1 if anything failed or nothing was tried."""
        for failure in self.failures[:MOST_FAILURES]:
            print(f"{self.name}: {failure}")
        is_empty = needs_counts and not self.skips and not sum(self.counts.values())
        told = [f"{number} {what}" for what, number in self.counts.items()] or ["nothing was tried"] * is_empty
        told += [f"skipped: {it}" for it in self.skips] + [f"{len(self.failures)} wrong"]
        # Of this process and of all that it has waited for.
        used = sum(os.times()[:4])
        print(f"{self.name}: {', '.join(told)} ({time.time() - self.started:.0f} s, {used:.0f} s of a processor)", flush=True)
        return 1 if self.failures or is_empty else 0


def difference(wanted, found):
    """How a value differs from the wanted one: both values if they are short, else the first lines that differ."""
    if not isinstance(wanted, (bytes, str)) or not isinstance(found, (bytes, str)) or len(wanted) + len(found) < MOST_CHARACTERS:
        return f"{found!r:.600} in place of {wanted!r:.600}"
    lines = [shown(it) for it in (wanted, found)]
    told = list(difflib.unified_diff(*lines, "wanted", "found", n=0, lineterm=""))[2:] if max(map(len, lines)) < 20_000 else []
    if not told:
        at = next((at for at, pair in enumerate(zip(*lines)) if pair[0] != pair[1]), min(map(len, lines)))
        told = [f"line {at + 1} of {len(lines[0])}, {len(lines[1])} found", *(sign + it for sign, side in zip("-+", lines) for it in side[at : at + 3])]
    return "\n".join(["differs", *(f"  {it[:MOST_CHARACTERS]}" for it in told[:MOST_LINES])])


def shown(text):
    return text.splitlines() if isinstance(text, str) else [ascii(it)[2:-1] for it in text.split(b"\n")]
