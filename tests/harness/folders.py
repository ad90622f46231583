"""Folders for the time of a test in which it starts programs."""

import contextlib
import os
import shutil
import tempfile
import time

# How often a folder is removed again, and the seconds between.
REMOVALS, PAUSE = 50, 0.1


@contextlib.contextmanager
def temporary(prefix, parent=None):
    """A new folder, which is removed in the end. A process that is ending may still write there: then it is removed once more, and
    what is left after all is no fault of the test."""
    path = tempfile.mkdtemp(prefix=prefix, dir=parent)
    try:
        yield path
    finally:
        for _ in range(REMOVALS):
            shutil.rmtree(path, ignore_errors=True)
            if not os.path.lexists(path):
                break
            time.sleep(PAUSE)
