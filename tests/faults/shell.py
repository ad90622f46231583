"""camp_shell ends well where its output, its input or memory fails: what is written is a prefix of the answers.

Words: outputs, inputs, memory name parts.
"""

import os
import tempfile

from tests.harness import programs, sessions
from tests.harness.camp import Program
from tests.harness.conversation import ask
from tests.harness.paths import EXAMPLES, read
from tests.harness.store import oks

SECONDS, GATE = 6, "after camp_shell"
TOO_LARGE = "cannot write output: File too large (os error 27)"
# The status of a program whose output nobody reads any more, as of one that SIGPIPE ends; it says nothing.
CLOSED_PIPE = 141


def run(report, words):
    shell = Program(report, "camp_shell")
    parts = {"outputs": outputs, "inputs": lambda shell: sessions.play_all(shell, "shell_ends", "failing ends"), "memory": memory}
    for name in words or parts:
        parts[name](shell)


def outputs(shell):
    commands, answers = read(f"{EXAMPLES}/shell.talk"), read(f"{EXAMPLES}/shell.talk.stdout")
    for size in range(len(answers) + 1):
        cut_output(shell, commands, answers, size)
    for count in range(5):
        closed_output(shell, count)
    for flag in ("--help", "--version"):
        closed_help(shell, flag)


def cut_output(shell, commands, answers, size):
    """An output that takes so many bytes and no more."""
    with tempfile.TemporaryFile() as output:
        done = shell.run(commands, stdout=output, restore_signals=False, preexec_fn=programs.limit_files(size))
        output.seek(0)
        shell.report.expect(f"the output of {size} bytes", output.read(), answers[:size])
    is_whole = size == len(answers)
    shell.expect(f"the end at {size} bytes", done, None, None if is_whole else TOO_LARGE, 0 if is_whole else 3)


def closed_output(shell, count):
    """A peer that closes its end after so many answers: the next one cannot be written."""
    peer = programs.start([shell.program], restore_signals=False)
    for at in range(count):
        shell.report.expect("an answer", ask(peer, b"record main p%d add f%d\n" % (at, at)), b"ok %d\n" % (at + 1))
    peer.stdout.close()
    peer.stdin.write(b"names main\n")
    peer.stdin.close()
    end = peer.stderr.read(), peer.wait(timeout=programs.TIMEOUT)
    shell.report.expect(f"an output that is closed after {count} answers", end, (b"", CLOSED_PIPE))
    shell.report.count("closed outputs")


def closed_help(shell, flag):
    """A text that was asked for, and that nobody reads."""
    reader, writer = os.pipe()
    os.close(reader)
    done = shell.run(flags=[flag], stdout=writer, restore_signals=False)
    os.close(writer)
    shell.expect(f"{flag} to a closed pipe", done, None, None, CLOSED_PIPE)


def memory(shell):
    """Address spaces of growing sizes: each command is answered as with ample memory, or `memory`, and then is not accepted; the
    conversation goes on, or ends with status 3."""
    if not shell.has_spaces():
        return
    body = b"+" + b"x" * 4000 + b"\n"
    commands = []
    for at in range(40):
        commands += [b"record main p%d add f%d\n" % (at, at), b"record main e%d edit f%d 1\n" % (at, at) + body * 500 + b"end\n"]
    seen = set()
    for size in (12, 16, 20, 24, 28, 32, 40, 48, 64, 96, 128, 192, 256, 400):
        done = programs.run(programs.limited([shell.program], v=size * 1024), b"".join(commands))
        expect_prefix(shell.report, size, commands, done.stdout.splitlines())
        if done.returncode in (0, 3):
            shell.report.expect(f"the error with {size} MB", done.stderr, b"camp_shell: out of memory\n" if done.returncode else b"")
            seen.add((done.returncode, b"memory" in done.stdout))
        elif done.stdout:
            shell.report.fail(f"{size} MB: status {done.returncode}, {done.stderr[-200:]!r}")
        shell.report.count("address spaces")
    if (0, False) not in seen or len(seen) < 2:
        shell.report.fail(f"no address space was too small, or none was large enough: {seen}")


def expect_prefix(report, size, commands, answers):
    """Answers to records of files and then of lines, each of which needs its file."""
    accepted, has_file = 0, False
    for at, answer in enumerate(answers):
        is_edit = at % 2 == 1
        if answer == b"memory":
            has_file = has_file and is_edit
            continue
        wanted = b"refused 10" if is_edit and not has_file else oks(accepted + 1, accepted + 1).strip()
        if not report.expect(f"{size} MB, {commands[at][:30]!r}", answer, wanted):
            return
        accepted += answer.startswith(b"ok")
        has_file = not is_edit
