r"""Runs a program over files of a folder, step by step: cases of tests/data, as in loads, stores and ends.

Cases stand apart by an empty line; the comments before one are its name. The texts of a step stand below it, each line behind a sign,
with the escapes of tests/harness/golden.py.

    file NAME, append NAME        makes a file, or makes it longer: the lines behind |
    folder NAME; remove NAME
    link NAME TARGET; name NAME TARGET    makes a symbolic link, or one more name of a file
    store NAME [LIMITS]           makes a store of the calls behind |
    run WORDS                     runs the program: < is its input, > what it writes, ! its standard error, where `!...` stands for any text.
                                  `status N` is its status, if not 0; `input PATH` and `output PATH` stand in place of its input and output,
                                  where `closed` is a stream that was closed
    same NAME ..                  each file is as it was before that run
    is NAME [LIMITS]              a file is a store of the calls behind |
    files NAME ..                 the folder has these files and no others
"""

import contextlib
import os
import re
import tempfile

from tests.harness import programs
from tests.harness.conversation import commands_of
from tests.harness.golden import unescape
from tests.harness.paths import DATA, read, read_text, write
from tests.harness.store import TITLE, encode

TEXTS = {"|": "lines", "<": "given", ">": "output", "!": "error"}


def play_all(trial, name, what):
    """Plays the cases of a file of tests/data with the program of a trial, and counts them in its report as `what`."""
    for block in re.split(r"\n\n+", read_text(f"{DATA}/{name}").strip("\n")):
        title, steps = steps_of(block)
        if steps:
            with tempfile.TemporaryDirectory(prefix="session-") as folder:
                session = Session(trial.report, trial.program, folder, title)
                for (step, *words), texts in steps:
                    session.steps[step](*words, **texts)
            trial.report.count(what)


def steps_of(block):
    """The name of a case, and its steps: the words of each, and the texts below it by their names."""
    title, steps = [], []
    for line in block.split("\n"):
        word, _, rest = line.partition(" ")
        if line[:1] == "#":
            title.append(line[2:])
        elif line[:1] in TEXTS:
            texts = steps[-1][1]
            texts[TEXTS[line[0]]] = texts.get(TEXTS[line[0]], "") + line[1:] + "\n"
        elif word in ("status", "input", "output"):
            steps[-1][1][f"{word}_word"] = rest
        else:
            steps.append((line.split(), {}))
    return " ".join(title), steps


class Session:
    """A folder, and what each of its files was before the last run."""

    def __init__(self, report, program, folder, title):
        self.report, self.program, self.folder, self.title, self.before = report, program, folder, title, {}
        self.steps = {"file": self.make, "append": self.append, "folder": lambda it: os.mkdir(self.path(it)), "remove": lambda it: os.remove(self.path(it)),
                      "link": lambda it, to: os.symlink(to, self.path(it)), "name": lambda it, of: os.link(self.path(of), self.path(it)),
                      "store": self.store, "run": self.run, "same": self.same, "is": self.is_store, "files": self.files}

    def path(self, name):
        return f"{self.folder}/{name}"

    def expect(self, what, found, wanted):
        self.report.expect(f"{self.title}: {what}", found, wanted)

    def make(self, name, lines=""):
        write(self.path(name), unescape(lines))

    def append(self, name, lines):
        write(self.path(name), read(self.path(name)) + unescape(lines))

    def store(self, name, *limits, lines=""):
        write(self.path(name), content(limits, lines))

    def run(self, *words, given="", output="", error="", status_word="0", input_word=None, output_word=None):
        self.before = {it: read(self.path(it)) for it in os.listdir(self.folder) if os.path.isfile(self.path(it))}
        how = {"cwd": self.folder, "preexec_fn": lambda: [os.close(at) for at, end in enumerate((input_word, output_word)) if end == "closed"]}
        with contextlib.ExitStack() as opened:
            for stream, end, way in (("stdin", input_word, os.O_RDONLY), ("stdout", output_word, os.O_RDWR)):
                if end not in (None, "closed"):
                    how[stream] = os.open(os.path.join(self.folder, end), way)
                    opened.callback(os.close, how[stream])
            done = programs.run([self.program, *words], unescape(given), **how)
        wanted_output = None if "stdout" in how else unescape(output)
        wanted_error = done.stderr if error == "...\n" else unescape(error)
        self.report.expect_run(f"{self.title}: {' '.join(words)}", done, wanted_output, wanted_error, int(status_word))
        self.report.count("runs")

    def same(self, *names):
        self.expect("the files after it", {it: read(self.path(it)) for it in names}, {it: self.before[it] for it in names})

    def is_store(self, name, *limits, lines=""):
        self.expect(f"the file {name}", read(self.path(name)), content(limits, lines))

    def files(self, *names):
        self.expect("the files", sorted(os.listdir(self.folder)), sorted(names))


def content(limits, lines):
    """A store of some calls, whose title has these limits."""
    return encode([b" ".join([TITLE.strip(), *map(str.encode, limits)]) + b"\n", *commands_of(unescape(lines))])
