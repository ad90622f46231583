"""Heads that keep snapshots answer as heads without; a head with room for 4,194,304 of them is made, or is out of memory.

Of each table of crates/worked whose heads keep none, the heads are made with a snapshot for each 1, 2 and 64 calls. The lines
`adopted` are left out: they tell the difference.
"""

import re

from tests.harness import programs
from tests.harness.worked import tables

SECONDS, GATE = 3, "after worked"
GREAT = b"table seats-of-a-great-head\nhead 64 65536 1 1\n63 names main\n"


def run(report, words):
    program = programs.path("worked")
    given, wanted = tables("stdin"), tables("stdout")
    for every in (1, 2, 64):
        table = with_snapshots(given, every)
        report.count("heads", len(re.findall(rb"^head .* %d$" % every, table, re.M)))
        found = programs.run([program], table).stdout
        report.expect(f"a snapshot for each {every} calls", found, with_snapshots(wanted, every))
    great_head(report, program)


def with_snapshots(found, every):
    """The tables of seats, with a snapshot for so many calls at each head that has none, and without the lines `adopted`."""
    text = b"".join(table for name, table in found.items() if name.startswith(("seats", "memory-seats")))
    text = re.sub(rb"^adopted \d+\n", b"", text, flags=re.M)
    return re.sub(rb"^(head \d+ \d+ \d+) 0$", rb"\1 %d" % every, text, flags=re.M)


def great_head(report, program):
    """Out of memory for good, `worked` ends after the line before with status 4."""
    sizes = (None, 40000, 80000, 160000, 320000) if programs.is_plain(program) else (None,)
    for size in sizes:
        done = programs.run(programs.limited([program], v=size), GREAT)
        wanted = (4, GREAT.splitlines(keepends=True)[0]) if size and done.returncode else (0, GREAT + b"names 0\n")
        report.expect(f"a head with 4,194,304 snapshots in {size or 'ample'} KiB", (done.returncode, done.stdout), wanted)
        report.count("sizes of memory")
