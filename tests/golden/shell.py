"""camp_shell's conversations are answered byte by byte: examples, short ones, loaded files, and lines at their limits.

Words: examples, conversations, loads, lines, peers, options, terminals name parts; none: all.
"""

import os
import re
import tempfile

from tests.harness import golden, programs, sessions
from tests.harness.camp import Program
from tests.harness.conversation import ask
from tests.harness.paths import DATA, EXAMPLES, TOP, read
from tests.harness.store import oks
from tests.harness.terminal import Terminal

SECONDS, GATE = 10, "after camp_shell"


def run(report, words):
    shell = Program(report, "camp_shell")
    parts = {"examples": examples, "conversations": conversations, "loads": loads, "lines": lines, "peers": peers, "options": options, "terminals": terminals}
    for name in words or parts:
        parts[name](shell)


def options(shell):
    """The help text, short and long, or the version is all that is written."""
    short, version = read(f"{DATA}/shell_short_help"), b"camp_shell " + read(f"{TOP}/VERSION")
    for flags, wanted in (("-h", short), ("--version", version), ("-V", version), ("--frames -V", version), ("-h extra", short)):
        shell.expect(f"options: {flags}", shell.run(b"branches\n", flags.split()), wanted)
    long = shell.run(flags=["--help"]).stdout
    for it in re.findall(rb"^ .*(--[\w-]+)", short, re.M) + [b"Exit status:"]:
        shell.report.expect(f"the long help has {it}", it in long, True)


def terminals(shell):
    """Prompts ask for the lines where both ends are terminals, and nowhere else."""
    for command, is_asked in (('"$SHELL_PROGRAM"', True), ('"$SHELL_PROGRAM" | cat', False), ('echo names main | "$SHELL_PROGRAM"', False)):
        terminal = Terminal(f"set -o pipefail; {command}; echo status $?", {**os.environ, "SHELL_PROGRAM": shell.program}, TOP)
        # The last byte ends the input, as Ctrl-D does.
        os.write(terminal.end, b"names main\n\4")
        shown = terminal.read_until(lambda shown: False)
        terminal.close()
        shell.report.expect(command, (b"camp> " in shown, shown.count(b"names 0\r\n"), shown[-10:]), (is_asked, 1, b"status 0\r\n"))
        shell.report.count("terminals")


def examples(shell):
    """The conversations of examples/, whole, byte by byte, and the last one up to each of its bytes."""
    for name in ("questions", "conflicts"):
        page(shell, name, *example(shell, f"{name}.talk"))
    prefixes(shell, example(shell, "shell.talk")[0][:700])


def example(shell, name):
    commands, answers = read(f"{EXAMPLES}/{name}"), read(f"{EXAMPLES}/{name}.stdout")
    shell.expect(name, shell.run(commands), answers)
    peer = programs.start([shell.program])
    for at in range(len(commands)):
        programs.send(peer, commands[at : at + 1])
    shell.report.expect(f"{name}, byte by byte", peer.communicate(timeout=programs.TIMEOUT)[0], answers)
    shell.report.count("examples")
    return commands, answers


def page(shell, name, commands, answers):
    """A page of docs/ has the commands of its example in its blocks `camp`, and after # the answers, but for the first ones,
    which are only `ok`."""
    blocks = re.findall(rb"^```camp\n(.*?)^```$", read(f"{TOP}/docs/{name}.md"), re.M | re.S)
    lines = b"".join(blocks).splitlines(keepends=True)
    shell.report.expect(f"the commands of docs/{name}.md", b"".join(it for it in lines if not it.startswith(b"#")), commands)
    shown = b"".join(it[2:] for it in lines if it.startswith(b"# "))
    if not (answers.endswith(shown) and re.fullmatch(rb"(ok \d+\n)*", answers[: len(answers) - len(shown)])):
        shell.report.fail(f"the answers of docs/{name}.md are not those of its example")


def prefixes(shell, commands):
    """Each prefix of a conversation: what whole commands are answered, and then what is left of one."""
    last = b""
    for at in range(len(commands) + 1):
        done = shell.run(commands[:at])
        found = done.stdout
        shell.expect(f"the prefix of {at} bytes", done, found)
        if at and commands[at - 1 : at] == b"\n":
            if not (found.startswith(last) or b"not ended" in last):
                shell.report.fail(f"the prefix of {at} bytes: {found!r} does not continue {last!r}")
            last = found
        shell.report.count("prefixes")


def conversations(shell):
    """The short conversations of tests/data/conversations."""
    for title, _, commands, answers in golden.cases("conversations"):
        shell.expect(title, shell.run(commands), answers)
        shell.report.count("conversations")


def loads(shell):
    """The cases of tests/data/loads: files, a command line, and what it writes."""
    sessions.play_all(shell, "loads", "loads")
    count = programs.many(shell.program, 70_000)
    long_load(shell, b"record main p add f\nobliterate main p\n" * (count // 2), oks(count), count + 1)
    long_load(shell, b"names main\n" * count, b"names 0\n" * count, 1)


def long_load(shell, commands, answers, number):
    """More calls, or questions, than a section of a script may have: in a file that is loaded, and in a conversation; a call behind them
    has this number."""
    last, wanted = b"branch last main\n", b"ok %d\n" % number
    with tempfile.NamedTemporaryFile() as file:
        file.write(commands)
        file.flush()
        shell.expect(f"--load of many commands as {commands[:20]!r}", shell.run(last, ["--load", file.name]), wanted)
    shell.expect(f"a conversation of many commands as {commands[:20]!r}", shell.run(commands + last), answers + wanted)
    shell.report.count("commands of long conversations", 2 * answers.count(b"\n"))


def lines(shell):
    """The conversations of tests/data/long_lines: those of one line with another one after it, and without LF."""
    for title, _, commands, answers in golden.cases("long_lines"):
        is_line = commands.count(b"\n") == 1
        shell.expect(title, shell.run(commands + b"names x\n" * is_line), answers + b"refused 4 x\n" * is_line)
        if is_line:
            shell.expect(f"{title}, without LF", shell.run(commands[:-1]), answers)
        shell.report.count("long conversations")
    endless_line(shell)


def endless_line(shell):
    """A line that does not end, in an address space without room for it."""
    if not shell.has_spaces():
        return
    words = programs.limited(["sh", "-c", 'head -c 400000000 /dev/zero | "$0"', shell.program], v=65536)
    shell.expect("a line of 400 MB", programs.run(words), b"fault 1 unknown command\n")
    shell.report.count("long conversations")


def peers(shell):
    blocked_input(shell)
    waiting_peer(shell, programs.many(shell.program, 10_000))


def blocked_input(shell):
    """An input that would block, in each form: the program says so and ends. One that asked again would use up its second."""
    for form in ([], ["--frames"]):
        end, other = os.pipe()
        os.set_blocking(end, False)
        done = programs.run(programs.limited([shell.program, *form], t=1), stdin=end)
        os.close(end), os.close(other)
        told = done.stderr.startswith(b"camp_shell: cannot read input: ")
        shell.report.expect(f"an input that would block {form}", (done.stdout, told, done.returncode), (b"", True, 3))
        shell.report.count("inputs that would block")


def waiting_peer(shell, count):
    """A peer that reads each answer before it sends the next command."""
    peer = programs.start([shell.program])
    expect = shell.report.expect
    expect("the first", ask(peer, b"record main start add f\n"), b"ok 1\n")
    text = b""
    for at in range(1, count + 1):
        if at % 3 == 1 and at < 3000:
            old = b"-" + text + b"\n" if text else b""
            text = b"line %d" % at
            expect("a record", ask(peer, b"record main p%d edit f 1\n%s+%s\nend\n" % (at, old, text)), b"ok %d\n" % (at // 3 + 2))
        elif at % 3 == 2:
            expect("a tree", ask(peer, b"tree main\n"), b"tree 1\nfile f 1\n=" + text + b"\n")
        else:
            expect("a refusal", ask(peer, b"names other\n"), b"refused 4 other\n")
    expect("the end", (*peer.communicate(timeout=programs.TIMEOUT), peer.returncode), (b"", b"", 0))
    shell.report.count("commands, each awaited", count)
