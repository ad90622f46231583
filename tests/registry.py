"""The tests: each file of a folder of tests/ that has a function `run`. See README.md for what such a file says of itself."""

import glob
import importlib
import os

from tests.harness.paths import TOP

HERE = f"{TOP}/tests"
# When the gate runs a test: beside the proofs, after those of the programs that are named behind it (of all, if none is), or not at all.
BESIDE, AFTER, NEVER = "beside", "after", "never"


class Test:
    """A test: its name, which is that of its file, and what the file says of it."""

    def __init__(self, name):
        self.name, self.module = name, importlib.import_module(f"tests.{name.replace('/', '.')}")
        self.shows, _, self.help = self.module.__doc__.partition("\n")
        self.seconds, self.gate = self.module.SECONDS, self.module.GATE
        self.gate_words = list(getattr(self.module, "GATE_WORDS", []))
        self.run = self.module.run


def names():
    paths = sorted(glob.glob(f"{HERE}/*/*.py"))
    found = [os.path.relpath(it, HERE)[: -len(".py")] for it in paths if not it.endswith("__init__.py")]
    return [it for it in found if not it.startswith("harness/")]


def all_tests():
    return [Test(it) for it in names()]


def named(words):
    """The tests of some names or folders, in this order; None where a word is the name of none."""
    found = []
    for word in (it.rstrip("/").replace("tests/", "", 1) for it in words):
        some = [it for it in names() if it == word or it.startswith(f"{word}/")]
        if not some:
            return None
        found += [it for it in some if it not in found]
    return [Test(it) for it in found]
