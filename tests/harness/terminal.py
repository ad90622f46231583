r"""Types at programs in a terminal of their own, and gives back what it shows: transcripts, as data and in documents, are run so.

A transcript is what a person sees. A line `$ COMMAND` is run by bash, in a terminal and one after the other. A line that begins
with a prompt of camp is typed after it; the lines below are what is shown up to the next prompt, where a line `...` stands for any
lines, and `...` at the end of a line for the rest of it.
Two terminals side by side are two columns, `LEFT | RIGHT`, with their names above them; what stands higher is typed earlier.
An escape character is `\e`, a carriage return inside a line `\r`. In typed text `<C-c>`, `<C-d>`, `<Tab>` and `<Up>` are keys. Enter follows, unless the last key is Ctrl-C or Ctrl-D.
"""

import contextlib
import fcntl
import glob
import os
import pty
import re
import select
import signal
import struct
import termios
import time

from tests.harness.paths import read_text

PROMPTS = ("camp> ", "....> ")
KEYS = {"<C-c>": "\x03", "<C-d>": "\x04", "<Tab>": "\t", "<Up>": "\x1b[A"}
COLUMNS = 130
# The line that says how long something takes, written anew each second, and then taken away.
PROGRESS = re.compile(r"(\\rworking: [^\\]*)+\\r *\\r")
# Seconds without a prompt after which a program counts as hanging.
TIMEOUT = 1800
# Seconds after which Ctrl-C is typed once more, if nothing is at work: Python does not see one that comes between a key and its wait for the next.
REPEAT = 3


class Terminal:
    """A command of bash in a terminal."""

    def __init__(self, command, environment, folder, columns=COLUMNS):
        self.process, self.end = pty.fork()
        if self.process == 0:
            with contextlib.suppress(BaseException):
                os.chdir(folder)
                # The width is set before anything asks for it.
                fcntl.ioctl(0, termios.TIOCSWINSZ, struct.pack("HHHH", 40, columns, 0, 0))
                os.execvpe("bash", ["bash", "-c", command], environment)
            os._exit(127)

    def read_until(self, is_enough, is_interrupted=False):
        """What is shown until the end of the command, or until it is enough."""
        shown, last = b"", time.time()
        while not is_enough(shown):
            if time.time() - last > TIMEOUT:
                return shown + b"\r\n(the program hangs)\r\n"
            if is_interrupted and not shown and time.time() - last > REPEAT and self.is_idle():
                self.interrupt()
                is_interrupted = False
            if select.select([self.end], [], [], 1)[0]:
                try:
                    more = os.read(self.end, 65536)
                except OSError:
                    more = b""
                if not more:
                    break
                shown, last = shown + more, time.time()
        return shown

    def is_idle(self):
        """Whether what runs in the terminal waits, and has used no processor for a second."""
        states = []
        for pause in (1, 0):
            states.append([])
            for path in glob.glob("/proc/[0-9]*/stat"):
                with contextlib.suppress(OSError):
                    fields = read_text(path).rpartition(")")[2].split()
                    if int(fields[2]) == os.tcgetpgrp(self.end):
                        states[-1].append((path, *fields[:1], *fields[11:13]))
            time.sleep(pause)
        return states[0] == states[1] and all(it[1] == "S" for it in states[0])

    def type(self, text):
        """Types a line, and returns what is shown after it."""
        keys = re.sub("<[A-Z][-a-z]+>", lambda it: KEYS.get(it[0], it[0]), text)
        is_interrupted = keys.endswith("\x03")
        if is_interrupted:
            before = keys[:-1].encode()
            os.write(self.end, before)
            self.read_until(lambda it: it.endswith(before))
            time.sleep(0.1)
            self.interrupt()
        else:
            os.write(self.end, (keys if keys.endswith("\x04") else keys + "\r").encode())
        return self.read_until(is_prompt, is_interrupted).partition(b"\n")[2]

    def interrupt(self):
        """Does what Ctrl-C does, but that the key also drops what is not read or shown yet."""
        os.killpg(os.tcgetpgrp(self.end), signal.SIGINT)

    def close(self):
        os.close(self.end)
        with contextlib.suppress(ProcessLookupError):
            os.kill(self.process, signal.SIGKILL)
        os.waitpid(self.process, 0)


def is_prompt(shown):
    """Whether a program waits for a line."""
    return shown.rpartition(b"\n")[2].decode(errors="replace") in PROMPTS


def lines_of(shown):
    """The lines that are shown, the prompt at their end among them. Escape characters, and carriage returns inside a line, stand there as \\e and \\r."""
    return shown.decode("utf-8", "backslashreplace").replace("\r\n", "\n").replace("\x1b", "\\e").replace("\r", "\\r").split("\n")


def is_typed(line):
    return line.startswith(PROMPTS)


def is_match(wanted, lines):
    """Whether lines are those that are wanted."""
    if not wanted:
        return not lines
    if wanted[0] == "...":
        return any(is_match(wanted[1:], lines[at:]) for at in range(len(lines) + 1))
    return bool(lines) and is_line(wanted[0], lines[0]) and is_match(wanted[1:], lines[1:])


def is_line(wanted, line):
    """Whether a line is the wanted one. What a slow machine shows of how long something takes counts only where it is wanted."""
    if not wanted.startswith("\\r"):
        line = PROGRESS.sub("", line)
    return line.startswith(wanted[:-3]) if wanted.endswith("...") else line == wanted


def commands_of(transcript):
    """The commands of a transcript, each with its other lines."""
    found = []
    for line in transcript.splitlines():
        if line.startswith("$ "):
            found.append((line[2:], []))
        else:
            found[-1][1].append(line)
    return found


def run_command(command, wanted, environment, folder):
    """Runs a command and types the lines of its transcript. Returns the transcript that came of it, in which `...` stands where it
    stood for what came; it is the wanted one exactly if all is as it should be."""
    terminal = Terminal(command, environment, folder)
    found, rest = [], list(wanted)
    try:
        shown = lines_of(terminal.read_until(is_prompt))
        while True:
            prompt = shown.pop()
            at = next((at for at, it in enumerate(rest) if is_typed(it)), len(rest))
            found += rest[:at] if is_match(rest[:at], shown) else shown
            if prompt not in PROMPTS:
                return found + ([prompt] if prompt else []) + (["(it has ended here)"] if rest[at:] else [])
            if at == len(rest):
                return found + [prompt + "(it waits here)"]
            if not rest[at].startswith(prompt):
                return found + [prompt + "(this is its prompt)"]
            found.append(rest[at])
            text, rest = rest[at][len(prompt) :], rest[at + 1 :]
            shown = lines_of(terminal.type(text))
    finally:
        terminal.close()


class Column:
    """One of several terminals side by side, whose commands run one after the other: what it has shown since a line was typed, and what
    stands there for it."""

    def __init__(self, name, environment, folder, columns):
        self.name, self.place, self.terminal = name, (environment, folder, columns), None
        self.shown, self.wanted, self.typed, self.differences = [], [], "", []

    def take(self, cell):
        """Types a cell that is a command or begins with a prompt; any other one is a line that has to be shown."""
        if cell.startswith("$ "):
            self.compare()
            self.close()
            self.terminal = Terminal(cell[2:], *self.place)
            self.shown = lines_of(self.terminal.read_until(is_prompt))
        elif is_typed(cell):
            self.compare()
            prompt, text = cell[: len(PROMPTS[0])], cell[len(PROMPTS[0]) :]
            if self.prompt != prompt:
                self.differences.append(f"{self.name}: before {cell}: the prompt is {self.prompt!r}")
            self.shown = lines_of(self.terminal.type(text))
        else:
            self.wanted.append(cell)
            return
        self.typed, self.prompt = cell, self.shown.pop()

    def compare(self):
        if self.typed and not is_match(self.wanted, self.shown):
            self.differences.append("\n".join([f"{self.name}: {self.typed}", *(f"- {it}" for it in self.wanted), *(f"+ {it}" for it in self.shown)]))
        self.wanted = []

    def close(self):
        if self.terminal:
            self.terminal.close()


def run_together(text, environment, folder):
    """Runs a block with two columns, and returns how they differ from what is shown."""
    head, *rows = text.splitlines()
    middle = head.index("|")
    columns = [Column(it.strip(), environment, folder, middle) for it in (head[:middle], head[middle + 1 :])]
    try:
        for row in rows:
            for column, cell in zip(columns, (row[:middle].rstrip(), row[middle + 2 :].rstrip())):
                if cell:
                    column.take(cell)
        for it in columns:
            it.compare()
    finally:
        for it in columns:
            it.close()
    return [text for it in columns for text in it.differences]
