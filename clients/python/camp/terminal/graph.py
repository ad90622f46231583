"""`python3 -m camp graph`: a picture of a branch on standard output."""

from __future__ import annotations

import argparse
import sys
from typing import Optional

from ..errors import Error
from ..pictures import picture
from .backend import Ended, LogPlace
from .commands import wrong_name
from .run import open_backend
from .screen import complain

NOT_THERE = 1


def draw(given: argparse.Namespace, log: Optional[LogPlace]) -> int:
    """Writes the picture that a command line asks for, and returns the exit status."""
    wrong = wrong_name([given.branch, *given.patches])
    if wrong:
        complain(wrong)
        return NOT_THERE
    try:
        backend = open_backend(given.store, given.load, log)
        try:
            text = picture(backend.ask, given.branch, given.patches, given.open)
        finally:
            backend.close()
    except Ended as error:
        complain(str(error))
        return error.status
    except (Error, ValueError) as error:
        complain(str(error))
        return NOT_THERE
    sys.stdout.write(text)
    sys.stdout.flush()
    return 0
