"""A commit that is asked again after a write or a sync has failed does not answer ok, and asks nothing more of the file.

The program of tests/data/commits commits after each call of its input, whatever became of the last commit. Each write and
sync of its store fails in turn, and what was written since the last sync is then lost, as a system may do.
"""

import errno
import itertools
import tempfile

from tests.harness import tracing, unproved
from tests.harness.paths import DATA, write
from tests.harness.store import TITLE, calls, encode, overwrite

SECONDS, GATE = 100, "beside"
PAGE = f"{DATA}/commits"
# Calls that the store has, and those that are asked; syncs while it is opened, and writes and syncs of a commit.
BEFORE, MORE, OPENING, EACH = 2, 4, 2, 4
# So many calls keep the program running while it is built.
BUSY = 1_000


def run(report, words):
    if not tracing.can_trace():
        return report.skip("no program can be traced here")
    program = unproved.of_page("commits", PAGE, b"".join(calls(BUSY)))
    with tempfile.TemporaryDirectory(prefix="commits-") as folder:
        for turn in itertools.count():
            if not fail_at(report, program, folder, turn):
                break
            report.count("failed writes and syncs")
    report.expect("writes and syncs", turn, OPENING + MORE * EACH)


class Disk:
    """A file as a crash would leave it, and what is asked of it: one write or sync fails."""

    def __init__(self, path, content, turn):
        self.path, self.synced, self.turn = path, content, turn
        self.pending, self.asked, self.answers = [], 0, []

    def at_call(self, call):
        if call.name == "write" and call.file == "out":
            self.answers += [(it, self.synced, self.asked) for it in call.data.splitlines()]
        if call.name not in ("write", "pwrite", "fsync", "fdatasync") or call.file != self.path:
            return None
        self.asked += 1
        is_failing = self.asked == self.turn + 1
        if call.data is not None:
            self.pending += [] if is_failing else [(call.at, call.data)]
            return ("fail", errno.EIO) if is_failing else None
        for at, data in [] if is_failing else self.pending:
            self.synced = overwrite(self.synced, at, data)
        self.pending = []
        return ("fail", errno.EIO) if is_failing else None


def fail_at(report, program, folder, turn):
    """Fails a write or sync of the store. Whether there was one."""
    path, old = f"{folder}/store", calls(BEFORE)
    write(path, encode([TITLE, *old]))
    disk = Disk(path, encode([TITLE, *old]), turn)
    new = calls(MORE, BEFORE)
    status, _, error, _ = tracing.run([program], new, False, disk.at_call, folder)
    what, failed_at = f"write or sync {turn} fails", None
    report.expect(f"{what}: status and error", (status, error), (0, b""))
    if turn < OPENING:
        return report.expect(f"{what}: answers", len(disk.answers), 1)
    for count, (answer, content, asked) in enumerate(disk.answers, 1):
        if failed_at is not None:
            report.expect(f"{what}: answer {count}", (answer, asked), (b"an earlier write to the file has failed", failed_at))
        elif answer == b"ok":
            report.expect(f"{what}: the file at ok {count}", content, encode([TITLE, *old, *new[:count]]))
        else:
            report.expect(f"{what}: answer {count}", answer, b"Input/output error (os error 5)")
            failed_at = asked
    report.expect(f"{what}: how many answers", len(disk.answers), MORE)
    return disk.asked > turn
