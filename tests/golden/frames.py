"""camp_shell answers requests in frames: good ones, garbage, each prefix, 200,000 at once, 10,000 that are awaited, a client in Python."""

import sys

from tests.harness import golden, programs
from tests.harness.camp import Program
from tests.harness.conversation import frame
from tests.harness.paths import EXAMPLES, read

SECONDS, GATE = 6, "after camp_shell"
CLIENT = f"{EXAMPLES}/clients/camp_client.py"
CUT = "the input ends inside a request"
# Requests that follow one another, and their answers.
REQUESTS = [tuple(map(golden.unescape, it)) for it in golden.rows("frames")]


def run(report, words):
    shell = Program(report, "camp_shell")
    ask = lambda given: shell.run(given, ["--frames"])
    given, answers = (b"".join(map(frame, it)) for it in zip(*REQUESTS))
    shell.expect("all requests", ask(given), answers)
    shell.expect("no request", ask(b""))
    report.count("requests", len(REQUESTS))
    garbage(shell, ask)
    prefixes(shell, ask)
    many = programs.many(shell.program, 200_000)
    shell.expect(f"{many} requests at once", ask(frame(b"names main") * many), frame(b"names 0\n") * many)
    waiting_peer(report, shell.program, programs.many(shell.program, 10_000))
    shell.expect("the client in Python", programs.run([sys.executable, CLIENT, shell.program]), read(f"{CLIENT}.stdout"))


def garbage(shell, ask):
    """Garbage first, and after requests: their answers are written."""
    given, answers = (b"".join(map(frame, it)) for it in zip(*REQUESTS[:5]))
    for text, error in golden.rows("wrong_frames"):
        text = golden.unescape(text)
        shell.expect(f"{text[:20]!r}", ask(text), b"", error, 1)
        shell.expect(f"{text[:20]!r} after requests", ask(given + text), answers, error, 1)
        shell.report.count("wrong inputs", 2)


def prefixes(shell, ask):
    """Each prefix of some requests: those that are whole are answered, and one that is cut ends the program."""
    given, answers, whole = b"", b"", {0: b""}
    for request, answer in REQUESTS[:9]:
        given, answers = given + frame(request), answers + frame(answer)
        whole[len(given)] = answers
    last = b""
    for size in range(len(given) + 1):
        last, is_whole = whole.get(size, last), size in whole
        shell.expect(f"the prefix of {size} bytes", ask(given[:size]), last, None if is_whole else CUT, 0 if is_whole else 1)
        shell.report.count("prefixes")


def waiting_peer(report, program, count):
    """A peer that reads each answer before it sends the next request."""
    peer = programs.start([program, "--frames"])
    for at in range(count):
        name = at % 3000
        first = b"ok %d\n" % (at + 1) if at < 3000 else b"refused 6 p%d\n" % name
        programs.send(peer, frame(b"record main p%d add f%d\nnames x" % (name, name)))
        size = peer.stdout.readline()
        if not report.expect(f"answer {at}", peer.stdout.read(int(size or b"0")), first + b"refused 4 x\n"):
            break
    report.expect("the end", (*peer.communicate(timeout=programs.TIMEOUT), peer.returncode), (b"", b"", 0))
    report.count("requests, each awaited", count)
