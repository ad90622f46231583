"""The commands that import commits of git, and export patches to it."""

from __future__ import annotations

import argparse
import io
import os
import sys

from camp.git import Commits, git, records, write_stream

from . import Failure
from .copy import UPDATE, reading, writing
from .show import emit


def export(words: argparse.Namespace) -> int:
    with reading() as copy:
        branch = copy.branch_of(words.branch or copy.branch)
        stream = io.BytesIO() if words.to else sys.stdout.buffer
        write_stream(copy.shared, copy.own if branch == copy.branch else branch, copy.shared.notes, branch, stream)
        if words.to:
            if not os.path.isdir(words.to):
                git(".", "init", "-q", "-b", branch, words.to)
            git(words.to, "fast-import", "--quiet", given=stream.getvalue())
            emit("{} is in {}: `git -C {} log {}`".format(branch, words.to, words.to, branch))
    return 0


def import_command(words: argparse.Namespace) -> int:
    with writing() as copy:
        copy.check_clean("import")
        commits, there, count = Commits(words.repository, words.commit), set(copy.shared.names(copy.own)), 0
        if not commits.notes.keys() & there and copy.shared.tree(copy.own):
            raise Failure("{} has files already: import into a branch without, as of a new repository".format(copy.branch))
        copy.state.update(doing=UPDATE)
        try:
            for calls in records(commits, copy.own, there):
                copy.ask_all(calls)
                count += 1
        finally:
            copy.bring([])
            copy.publish(copy.shared.missing(copy.own, copy.branch))
            emit("{} of {} commits came in".format(count, len(commits.notes)))
    return 0
