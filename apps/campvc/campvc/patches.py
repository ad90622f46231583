"""What goes into a patch: the changes that the user chooses, and a note that says who made it, when and why."""

from __future__ import annotations

import getpass
import os
import time
from datetime import datetime, timezone
from typing import Iterator, List

from camp import Change, Edit
from camp.notes import Note

from . import Failure, show

QUESTION = "record this change? ({} of {}) [y, n, a: all that are left, d: done, q: nothing at all] "


def select(files: List[List[Change]]) -> List[List[Change]]:
    """Asks which changes to record, and returns them for each file. A file that is added or removed is one question, else each hunk is one."""
    units = [[[it] for it in reversed(some)] if all(isinstance(it, Edit) for it in some) else [some] for some in files if some]
    answers = ask_for([unit for some in units for unit in some])
    return [[change for unit in reversed([it for it in some if next(answers)]) for change in unit] for some in units]


def ask_for(units: List[List[Change]]) -> Iterator[bool]:
    """Asks for each unit whether to record it."""
    rest = ""
    for number, unit in enumerate(units, 1):
        answer = rest
        if not rest:
            show.print_changes(unit)
        while answer not in ("y", "n", "a", "d"):
            answer = show.ask(QUESTION.format(number, len(units))).lower() or "q"
            if answer == "q":
                raise Failure("nothing is recorded")
        rest = {"a": "a", "d": "d"}.get(answer, "")
        yield answer in ("y", "a")


def new_note(message: str, author: str) -> Note:
    """Makes a note with the time of now. CAMPVC_AUTHOR and CAMPVC_DATE set another author and time."""
    now = datetime.fromtimestamp(int(time.time()), timezone.utc).astimezone().isoformat()
    message = "\n".join(line.rstrip() for line in message.strip().split("\n"))
    if not message:
        raise Failure("the message is empty: say what this patch is for, with -m TEXT")
    return Note(os.environ.get("CAMPVC_AUTHOR", author), os.environ.get("CAMPVC_DATE", now), message)


def default_author() -> str:
    """Returns CAMPVC_AUTHOR, or the user of this machine."""
    if os.environ.get("CAMPVC_AUTHOR"):
        return os.environ["CAMPVC_AUTHOR"]
    try:
        return "{} <{}@{}>".format(getpass.getuser(), getpass.getuser(), os.uname().nodename)
    except (KeyError, OSError):
        return "somebody <somebody@localhost>"
