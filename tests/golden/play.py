"""./play answers each file of examples/, hands options on, and says how far a build is by what the last one took.

Words: none.
"""

import contextlib
import io
import os

from tests.harness import programs, unproved
from tests.harness.folders import temporary
from tests.harness.paths import EXAMPLES, TOP, read_text
from tests.harness.terminal import Terminal, is_prompt

SECONDS, GATE = 10, "after camp camp_shell"
# What is said of a build after so many seconds, where nothing is known of the last one, and where that took 95.
UNKNOWN = {0: "Building camp without proofs, once: some 100 seconds where the machine has nothing else to do.\n    0 s\n", 5: "", 12: "   12 s\n"}
KNOWN = {0: "Building camp without proofs, once: the last time it took 95 seconds on this machine.\n    0 s, some 95 s left\n",
         30: "   30 s, some 65 s left\n", 120: "  120 s: longer than the last time\n"}


def run(report, words):
    environment = {**os.environ, "CAMP": programs.path("camp"), "CAMP_SHELL": programs.path("camp_shell")}
    for name in sorted(os.listdir(EXAMPLES)):
        if name.endswith((".camp", ".talk")):
            answers(report, f"examples/{name}", environment)
    with temporary("play-") as folder:
        conversation(report, folder, environment)
        progress(report, folder)
    done = programs.run(["./play", "examples/none.camp"], cwd=TOP, env=environment)
    report.expect_run("no such file", done, b"", b"play: examples/none.camp: No such file or directory\n", 1)
    done = programs.run(["./play", "--help"], cwd=TOP, env=environment)
    report.expect("--help", (b"./play shell [OPTION ..]" in done.stdout, done.returncode), (True, 0))


def answers(report, path, environment):
    """A file is answered as its golden answer says, by the program that it is for."""
    golden = lambda end: read_text(f"{TOP}/{path}.{end}") if os.path.exists(f"{TOP}/{path}.{end}") else ""
    done = programs.run(["./play", path], cwd=TOP, env=environment)
    commands, _, rest = done.stdout.decode().partition("\nThe answers of ")
    of = lambda text: "".join(line[4:] + "\n" for line in text.split("\n") if line.startswith("    "))
    report.expect(f"{path}: its commands", of(commands), read_text(f"{TOP}/{path}"))
    report.expect(f"{path}: its answers", of(rest), golden("stdout") + golden("stderr"))
    status = golden("status").strip()
    report.expect(f"{path}: its status", f"Its exit status is {status}." in rest if status else "exit status" in rest, bool(status))
    report.expect(f"{path}: ./play", (done.stderr, done.returncode), (b"", 0))
    report.count("examples")


def conversation(report, folder, environment):
    """./play shell hands its options on."""
    terminal = Terminal("./play shell --store \"$STORE\"", {**environment, "TERM": "xterm", "STORE": f"{folder}/a store"}, TOP)
    terminal.read_until(is_prompt)
    report.expect("a call", terminal.type("record main start add f").startswith(b"ok 1\r\n"), True)
    terminal.type("quit")
    terminal.close()
    done = programs.run([environment["CAMP_SHELL"], "--store", f"{folder}/a store"], b"names main\n")
    report.expect_run("what it has kept", done, b"names 1\nstart\n")
    report.count("conversations")


def progress(report, folder):
    """What is said of a build, before and after one is known."""
    before = os.environ.get("XDG_CACHE_HOME")
    os.environ["XDG_CACHE_HOME"] = folder
    for known in (UNKNOWN, KNOWN):
        tell = unproved.Steps("camp")
        for seconds, wanted in known.items():
            with contextlib.redirect_stderr(io.StringIO()) as said:
                tell(float(seconds))
            report.expect(f"after {seconds} seconds", said.getvalue(), wanted)
            report.count("seconds")
        unproved.note_seconds("camp", 95.2)
    if before is None:
        del os.environ["XDG_CACHE_HOME"]
    else:
        os.environ["XDG_CACHE_HOME"] = before
