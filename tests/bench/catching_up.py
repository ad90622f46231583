"""Instructions of a seat that catches up 64 calls later, at histories of any length: at most 20,000. Needs valgrind.

Words: numbers of calls; none: 4096 and 65536. Of a head of 64 seats that keeps a snapshot for each 64 calls, seats ask the calls,
65,000 each at most: a record of a file and an obliteration of it, in turn. The last seat asks a question after them, and one more
64 calls later. Valgrind counts the instructions of `Head::follow` in the last question alone: before it stand comments, which the
program prints, and while it waits for these to be read, the count is begun.
"""

import fcntl
import os
import re
import shutil
import subprocess
import tempfile

from tests.harness import programs

SECONDS, GATE = 10, "never"
EVERY, OF_A_SEAT, MOST = 64, 65_000, 20_000
# More comments than a pipe of a page takes.
COMMENTS = 3_000
QUESTION = "63 names main\n"


def run(report, words):
    if shutil.which("valgrind") is None:
        return report.skip("valgrind is not here")
    program = programs.path("worked")
    for calls in map(int, words or (4096, 65536)):
        first, second = (instructions(program, calls, it) for it in (False, True))
        report.note(f"{calls} calls: {first} instructions at first, {second} {EVERY} calls later")
        report.expect(f"at {calls} calls, whether the second is at most {MOST}", 0 < second <= MOST, True)
        report.count("histories")


def table(calls, is_second):
    """The calls, with the questions of the last seat, and comments before the last one."""
    yield f"table seats-far\nhead 64 65536 3 {EVERY}\n"
    for at in range(calls + EVERY * is_second):
        if at == calls:
            yield QUESTION
        yield f"{at // OF_A_SEAT} {'obliterate main p' if at % 2 else 'record main p add f'}\n"
    for at in range(COMMENTS):
        yield f"# {at}\n"
    yield QUESTION


def instructions(program, calls, is_second):
    """What valgrind counts in the last question."""
    with tempfile.TemporaryDirectory(prefix="catching-up-") as folder:
        with open(f"{folder}/table", "w", encoding="ascii") as file:
            file.writelines(table(calls, is_second))
        options = ["--tool=callgrind", "--instr-atstart=no", "--toggle-collect=*Head::follow*", f"--callgrind-out-file={folder}/out"]
        here, there = os.pipe()
        fcntl.fcntl(there, fcntl.F_SETPIPE_SZ, 4096)
        with open(f"{folder}/table", "rb") as text:
            peer = programs.start(["valgrind", *options, program], stdin=text, stdout=there)
        os.close(there)
        with os.fdopen(here, "rb") as output:
            while output.readline() not in (b"# 0\n", b""):
                pass
            subprocess.run(["callgrind_control", "-i", "on", str(peer.pid)], stdout=subprocess.DEVNULL, stderr=subprocess.DEVNULL, check=True)
            is_answered = b"\nnames " in output.read()
        count = re.search(rb"Collected : (\d+)", peer.communicate()[1])
    assert peer.returncode == 0 and is_answered and count, f"no count at {calls} calls"
    return int(count[1])
