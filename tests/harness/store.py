"""A repository in a file: the program over it, the file byte for byte, and the calls that the tests ask."""

import hashlib
import math
import os

from tests.harness import programs

TITLE = b"camp store 1\n"
NO_STORE = "no store of camp"


def encode(texts):
    """The file of these texts, as docs/store.md has it: each with a digest of the record before it and of itself."""
    digest, records = bytes(32), []
    for text in texts:
        digest = hashlib.sha256(digest + text).digest()
        records.append(b"=%08x %s\n%s" % (len(text), digest[:8].hex().encode(), text))
    return b"".join(records) + b"~"


def calls(number, first=0):
    return [b"record main p%d add f%d\n" % (n, n) for n in range(first, first + number)]


def oks(last, first=1):
    return b"".join(b"ok %d\n" % n for n in range(first, last + 1))


def long_script(number):
    """So many calls, on 75 branches whatever their number: a call takes longer where there are more branches, and a branch has
    4,096 changes at most."""
    each = math.ceil(number / 75)
    found = []
    for first in range(0, number, each):
        found.append(b"branch b%d main\n" % first)
        found.extend(b"record b%d p%d add f%d\n" % (first, n, n) for n in range(first + 1, first + each))
    return found[:number]


def overwrite(content, at, data):
    """A file after a write."""
    return content[:at].ljust(at, b"\0") + data + content[at + len(data) :]


class Store:
    """The program, the report of a test, a folder for its files, and whether all is tried that can be."""

    def __init__(self, report, folder, is_all=False):
        self.report, self.folder, self.is_all = report, folder, is_all
        self.program = programs.path("camp_shell")
        self.expect, self.count, self.fail = report.expect, report.count, report.fail

    def path(self, name):
        return os.path.join(self.folder, name)

    def words(self, path, *words):
        return [self.program, "--store", path, *words]

    def run(self, path, commands=b"", words=(), **how):
        return programs.run(self.words(path, *words), commands, **how)

    def start(self, path, **how):
        return programs.start(self.words(path), **how)

    def check(self, path):
        """The number of calls in a file, or the error why it is no store."""
        done = programs.run([self.program, "--check-store", path])
        if done.returncode == 0:
            return int(done.stdout.split()[1])
        return done.stderr.decode(errors="replace").strip()
