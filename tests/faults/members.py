"""Each allocation of two members over a log is refused in turn: what ran out of memory is tried again, and all answers are as ever.

The program of tests/data/members makes an allocation before for each byte of its input, so one program has each of the members' own
allocations fail. Inputs get shorter until 16 of them in a row have refused nothing.
"""

import subprocess

from tests.harness import programs, unproved
from tests.harness.paths import DATA

SECONDS, GATE = 100, "beside"
PAGE = f"{DATA}/members"
# The number of the allocation that fails.
REFUSED = 4_000
# So many runs in a row that refuse nothing say that all allocations were refused.
NOTHING = 16
# So many bytes keep the program running for a second or more once it is built.
BUSY = 1_000_000
# What the members answer: the patches of both are in conflict, so the file has no line.
WANTED = b"ok 1\nok 2\nok 3\nok 4\nok 5\ntree 1\nfile f 0\nconflicts 1\none two\nnames 3\nstart\ntwo\none\n"


def run(report, words):
    program = unproved.of_page("members", PAGE, b"x" * BUSY, ["--fail-alloc", str(REFUSED)])
    quiet, has_begun = 0, False
    for number, done in programs.each(lambda it: ask(program, it), range(REFUSED, 0, -1)):
        answers, _, refused = done.stdout.rpartition(b"out of memory ")
        report.expect(f"{number} allocations before: status, answers", (done.returncode, answers), (0, WANTED))
        report.count("refused allocations", refused == b"1\n")
        has_begun = has_begun or refused == b"1\n"
        quiet = quiet + 1 if has_begun and refused == b"0\n" else 0
        if quiet == NOTHING:
            return
    report.fail("the members make more allocations than can be refused")


def ask(program, before):
    return programs.run([program], b"x" * before, stderr=subprocess.DEVNULL)
