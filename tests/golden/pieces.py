"""Commands that come in two pieces: what is whole is answered before the second piece comes.

Words: short, long name parts; none: both.
"""

import os
import select
import tempfile
import time

from tests.harness import programs

SECONDS, GATE = 30, "after camp_shell"
COMMANDS = [
    b"record main a add f\n",
    b"# a note on an edit of a group\n",
    b"\n",
    b"record main b edit f 1\n+one\nend\n",
    b"record main q group\nadd g\nedit g 1\n+done\n+end\nend\ndone\n",
    # a bare done inside an edit is a line of its body, and ends no group
    b"record main t group\nadd k\nedit k 1\ndone\nend\ndone\n",
    b"record main u group\nadd k\nedit k 1\n+x\ndone\n+y\nend\ndone\n",
    b"record main edit add group\n",
    b"record main r edit f 1\nnonsense\nend\n",
    b"record main s group\nadd g\nnonsense\ndone\n",
    b"names main\n",
]
# More bytes than the reader holds at once.
LONG = [b"record main a add f\n", b"record main g group\nadd g\nedit g 1\n" + b"+%s\n" % (b"x" * 999) * 20 + b"end\ndone\n", b"names main\n"]
# Seconds after which an answer counts as held back, also on a machine with other work.
PATIENCE = 300


def run(report, words):
    parts = {"short": (COMMANDS, each_byte), "long": (LONG, near_each_thousandth)}
    program = programs.path("camp_shell")
    with tempfile.TemporaryDirectory() as folder:
        for name in words or parts:
            commands, places = parts[name]
            each_cut(report, program, f"{folder}/store", commands, places)


def each_byte(text):
    return range(len(text) + 1)


def near_each_thousandth(text):
    """Places near each thousandth byte, and each of the last 30."""
    return [*range(0, len(text) - 30, 997), *range(len(text) - 30, len(text) + 1)]


def each_cut(report, program, path, commands, places):
    """Cuts the text at each place; the answers of whole commands are those of a program that gets no more."""
    text, fronts = b"".join(commands), [b"".join(commands[:n]) for n in range(len(commands) + 1)]
    answers = [programs.run([program], front).stdout for front in fronts]
    for at in places(text):
        ready = max(n for n, front in enumerate(fronts) if len(front) <= at)
        is_well = cut(report, [program, "--store", path], text, at, answers[ready], answers[-1])
        os.remove(path)
        if not is_well:
            break


def cut(report, words, text, at, ready, wanted):
    peer = programs.start(words, stderr=None)
    os.set_blocking(peer.stdout.fileno(), False)
    programs.send(peer, text[:at])
    told, until = b"", time.time() + PATIENCE
    while len(told) < len(ready) and select.select([peer.stdout], [], [], max(0, until - time.time()))[0]:
        more = peer.stdout.read()
        if more == b"":
            break
        told += more or b""
    is_well = report.expect(f"cut at {at}", told, ready)
    os.set_blocking(peer.stdout.fileno(), True)
    report.count("pieces")
    return report.expect(f"cut at {at}, and on", told + peer.communicate(text[at:])[0], wanted) and is_well
