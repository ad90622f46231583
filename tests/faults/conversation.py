"""Each allocation of a conversation of 44 commands is refused in turn: an answer is whole, `memory`, or the end with status 3.

Words: a number N: each Nth allocation alone. A peer sends each command and reads its answer. Where it is `memory`, the command is sent
again and answered as ever, so that it had changed nothing. The line numbers of faults are left out: commands that are sent again move them.
Where each allocation is refused, each command has to be.
"""

import contextlib
import itertools
import re

from tests.harness import programs
from tests.harness.conversation import commands_of
from tests.harness.paths import EXAMPLES, read
from tests.harness.refusals import can_refuse, refusing

SECONDS, GATE = 20, "after camp_shell"
MORE = [b"record main Bad add f\n", b"record main g1 group\nadd g\nedit g 1\n+one\n+two\nend\ndone\n", b"record main e1 edit g 1\n*\nend\n",
        b"record main e2 edit g 2\n-two\n+zwei\nend\n", b"branch y main\n", b"names y\n", b"conflicts main\n", b"tree y\n",
        b"obliterate y e2\n", b"pull main y e2\n", b"pull main y e2\n", b"x\n", b"help record\n", b"#\n"]
ENDS = (3, b"camp_shell: out of memory\n")
# So many conversations in a row that are refused nothing say that all allocations were refused.
NOTHING = 16
# What stands for a command where none was refused.
BESIDE = -1


def run(report, words):
    apart, program = int(words[0]) if words else 1, programs.path("camp_shell")
    if not can_refuse(report, program):
        return
    talk = Conversation(report, program)
    talk.refuse_each(apart)
    missing = [it for at, it in enumerate(talk.commands) if at not in talk.refused]
    if missing and (apart == 1 or not talk.refused):
        report.fail(f"no memory was refused of {missing}")
    report.count("commands", len(talk.commands))
    for way in ("memory", "ends"):
        report.count(f"commands with an answer `{way}`", sum(way in it for at, it in talk.refused.items() if at != BESIDE))


class Peer:
    """A conversation of which one allocation is refused."""

    def __init__(self, program, number):
        self.run, self.marks = programs.start([program], env=refusing(number)), 0

    def send(self, text):
        with contextlib.suppress(BrokenPipeError):
            programs.send(self.run, text)

    def mark(self):
        """Asks a question that no other one is answered like; returns its answer."""
        self.marks += 1
        self.send(b"names mark%d\n" % self.marks)
        return b"refused 4 mark%d\n" % self.marks

    def ask(self, command):
        """The lines that answer a command: those up to the answer to a question behind it. `memory` may answer that question, too, so another
        one is asked then. None is the end."""
        self.send(command)
        lines, mark = [], self.mark()
        while True:
            line = re.sub(rb"^fault \d+ ", b"fault ", self.run.stdout.readline())
            if line in (mark, b""):
                return lines + ([] if line else [None])
            mark = self.mark() if line == b"memory\n" else mark
            if not line.startswith(b"refused 4 mark"):
                lines.append(line)

    def end(self):
        with contextlib.suppress(BrokenPipeError):
            self.run.stdin.close()
        self.run.wait(timeout=programs.TIMEOUT)
        return self.run.returncode, self.run.stderr.read()


class Conversation:
    """The commands, their answers with ample memory, and how each of them was refused: `memory` or `ends`."""

    def __init__(self, report, program):
        self.report, self.program, self.refused = report, program, {}
        self.commands = commands_of(read(f"{EXAMPLES}/questions.talk")) + MORE
        peer = Peer(program, 0)
        self.answers = [peer.ask(it) for it in self.commands]
        report.expect("ample memory", (peer.marks, peer.end()), (len(self.commands), (0, b"")))

    def refuse_each(self, apart):
        quiet = 0
        for _, found in programs.each(self.hold, itertools.count(1, apart)):
            quiet = 0 if found else quiet + 1
            if quiet == NOTHING or self.report.failures:
                break
            if found:
                self.refused.setdefault(found[0], set()).add(found[1])
                self.report.count("refused allocations")

    def hold(self, number):
        """Holds the conversation. Which command was refused memory (BESIDE: none of them, but a question behind one, or the end of the
        input), and how; None if nothing was."""
        peer, refused = Peer(self.program, number), None
        for at, (command, wanted) in enumerate(zip(self.commands, self.answers)):
            found = peer.ask(command)
            if refused is None and found[-1:] in ([b"memory\n"], [None]):
                refused = BESIDE if found[:-1] else at, "memory" if found[-1] else "ends"
                if refused == (at, "ends"):
                    break
                # What has no answer can be answered `memory` alone, as the question behind it.
                found = peer.ask(command) if refused == (at, "memory") and wanted else found[:-1]
            if not self.report.expect(f"allocation {number}, {command!r}", found, wanted) or refused == (BESIDE, "ends"):
                break
        end = peer.end()
        if refused is None and end == ENDS:
            refused = BESIDE, "ends"
        self.report.expect(f"allocation {number}, {refused}: the end", end, ENDS if refused and refused[1] == "ends" else (0, b""))
        return refused
