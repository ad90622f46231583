"""What `python3 -m camp shell` shows to whoever types at a terminal: the sessions of tests/data/terminal, and of docs/tutorial.md.

Words: names of cases, or parts of them; none: all. The form of a session stands in tests/harness/terminal.py; the blocks
```terminal of the page are one session.
"""

import os
import re
import shutil
import sys

from tests.harness import programs
from tests.harness.folders import temporary
from tests.harness.paths import DATA, EXAMPLES, TOP, read, read_text, write_text
from tests.harness.terminal import Terminal, commands_of, is_prompt, lines_of, run_command

SECONDS, GATE = 30, "after camp_shell"
TUTORIAL = f"{TOP}/docs/tutorial.md"


def cases():
    """The name and the transcript of each case."""
    parts = re.split(r"^== (.*)\n", read_text(f"{DATA}/terminal"), flags=re.M)[1:]
    yield from zip(parts[::2], parts[1::2])
    yield "docs/tutorial.md", "".join(re.findall(r"^```terminal\n(.*?)^```$", read_text(TUTORIAL), re.M | re.S))


def environment_of(folder, shell):
    """The environment of a person who has camp_shell on the PATH, and a home folder without files."""
    path = f"{folder}/bin:{os.path.dirname(sys.executable)}:{os.environ['PATH']}"
    os.mkdir(f"{folder}/bin")
    os.symlink(shell, f"{folder}/bin/camp_shell")
    client = {"PYTHONPATH": f"{TOP}/clients/python", "PYTHONDONTWRITEBYTECODE": "1"}
    return {"PATH": path, **client, "HOME": f"{folder}/home", "TERM": "xterm", "NO_COLOR": "1", "LC_ALL": "C.UTF-8"}


def interrupted(report, environment, folder):
    """Ctrl-C while an answer is awaited is noted, and the second one ends with words about what is lost."""
    # A program that gets the first 60 bytes of what it is sent, and then waits for the rest of a request until no more is sent.
    write_text(f"{folder}/stuck", '#!/bin/bash\n(dd bs=1 count=60 2>/dev/null; cat >/dev/null; :) | camp_shell "$@"\n')
    os.chmod(f"{folder}/stuck", 0o755)
    terminal = Terminal("CAMP_SHELL=./stuck exec python3 -m camp shell", environment, folder)
    terminal.read_until(is_prompt)
    terminal.type("record main start add f")
    os.write(terminal.end, b"tree main\r")
    terminal.read_until(lambda shown: b"working" in shown)
    terminal.interrupt()
    terminal.read_until(lambda shown: b"again ends the conversation." in shown)
    terminal.interrupt()
    lines = [it.rpartition("\\r")[2] for it in lines_of(terminal.read_until(lambda shown: False))]
    status = os.WEXITSTATUS(os.waitpid(terminal.process, 0)[1])
    os.close(terminal.end)
    wanted = ["ended by Ctrl-C", "Not answered: tree main", "Lost with it, since nothing was kept: 1 call."]
    report.expect("Ctrl-C twice while an answer is awaited", ([it for it in lines if it in wanted], status), (wanted, 130))
    report.count("interrupted requests")


def interrupted_reading(report, environment, folder):
    """Ctrl-C while a file is read stops there, and says which line was read last and how many calls were accepted."""
    # A program that takes a twentieth of a second for each request.
    proxy = ["import os, subprocess, sys, time", "to = subprocess.Popen(['camp_shell', *sys.argv[1:]], stdin=subprocess.PIPE).stdin"]
    proxy += ["while chunk := os.read(0, 65536):", "    time.sleep(0.05)", "    to.write(chunk)", "    to.flush()"]
    write_text(f"{folder}/proxy", "".join(line + "\n" for line in [f"#!{sys.executable}", *proxy]))
    os.chmod(f"{folder}/proxy", 0o755)
    write_text(f"{folder}/calls", "".join(f"record main a{at} add f{at}\n" for at in range(4000)))
    terminal = Terminal("CAMP_SHELL=./proxy exec python3 -m camp shell", environment, folder)
    terminal.read_until(is_prompt)
    os.write(terminal.end, b"read calls\r")
    terminal.read_until(lambda shown: b"working" in shown)
    terminal.interrupt()
    lines = [it.rpartition("\\r")[2] for it in lines_of(terminal.read_until(is_prompt))]
    said = next((it for it in lines if it.startswith("calls, line ")), "")
    names = lines_of(terminal.type("names main"))[0]
    terminal.close()
    count = names.rpartition(" ")[2]
    wanted = (True, f"calls, line {count}: the rest is not read; {count} calls accepted")
    report.expect("Ctrl-C while a file is read", ("Ctrl-C again ends the conversation." in lines, said), wanted)
    report.count("interrupted files")


def over_rlwrap(report, environment, folder):
    """rlwrap completes words of camp_shell by the file that the client for Python writes."""
    if not shutil.which("rlwrap"):
        return report.skip("rlwrap")
    write_text(f"{folder}/script", "record main start add notes\nbranch work main\nrecord work my-fix add src/a.c\n")
    words = [sys.executable, "-m", "camp", "shell", "--load", "script", "--completions", "words"]
    report.expect_run("--completions", programs.run(words, cwd=folder, env=environment), b"")
    terminal = Terminal("exec rlwrap -b ' ' -f words camp_shell --load script", {**environment, "RLWRAP_HOME": folder}, folder)
    terminal.read_until(lambda shown: shown.endswith(b"camp> "))
    for typed, wanted in ((b"sh\two\tmy\t", b"[my-fix add src/a.c]"), (b"file work src\t", b"file 0")):
        os.write(terminal.end, typed + b"\r")
        report.expect(f"{typed} by rlwrap", wanted in terminal.read_until(lambda shown: wanted in shown), True)
        report.count("words of rlwrap")
    os.write(terminal.end, b"quit\r")
    terminal.read_until(lambda shown: False)
    terminal.close()


def piped(report, environment, name):
    """A conversation of examples/ without faults is answered through a pipe as by camp_shell, with words of conflicts between."""
    done = programs.run([sys.executable, "-m", "camp", "shell"], read(f"{EXAMPLES}/{name}.talk"), env=environment)
    lines, rest = done.stdout.splitlines(), iter(done.stdout.splitlines())
    answers = [it for it in read(f"{EXAMPLES}/{name}.talk.stdout").splitlines() if not it.startswith(b"refused ")]
    report.expect(f"lines of {name} that are not answered", [it for it in answers if it not in rest], [])
    told = [it for it in lines if b"(unresolved)" in it or it.startswith(b"resolves ") or it.endswith(b" is unresolved again")]
    report.expect(f"{name}: words of conflicts, standard error, status", (bool(told), done.stderr, done.returncode), (True, b"", 0))
    report.count("piped conversations")


def run(report, words):
    shell = programs.path("camp_shell")
    if not words:
        with temporary("terminal-") as folder:
            environment = environment_of(folder, shell)
            interrupted(report, environment, folder)
            interrupted_reading(report, environment, folder)
            over_rlwrap(report, environment, folder)
            for name in ("questions", "conflicts"):
                piped(report, environment, name)
    for title, transcript in cases():
        if words and not any(it in title for it in words):
            continue
        with temporary("terminal-") as folder:
            environment = environment_of(folder, shell)
            os.makedirs(f"{folder}/home/work")
            for command, wanted in commands_of(transcript):
                found = run_command(command, wanted, environment, f"{folder}/home/work")
                report.expect(f"{title}: {command}", "\n".join(found), "\n".join(wanted))
                report.expect(f"{title}: faults without words", [it for it in found if re.match(r"(\\e\[31m)?fault \d", it)], [])
                report.count("typed lines", sum(it.startswith(("camp> ", "....> ")) for it in wanted))
        report.count("sessions")
