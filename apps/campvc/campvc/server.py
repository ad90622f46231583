"""The command server of a working copy: a process that stays when a command had to load a large repository, and runs the next commands
there; see `camp.served`. It listens at `.camp/server`. CAMPVC_SERVER=0 turns it off; with 1 each command that has loaded a repository
leaves one behind, however small that is."""

from __future__ import annotations

from typing import List

from camp.served import Program, start

# With all that commands need, so that it is loaded before they come.
from . import command_line, commands, conflicts, copy, git  # noqa: F401
from .client import identity

# Commands that write.
WRITE = ("record", "branch", "switch", "pull", "obliterate", "unrecord", "resolve", "sync")


def leave() -> None:
    """Leaves a server behind with the repository that this process has loaded."""
    start(*copy.LOADED.popitem(), "server", Program(identity(), run, asks_nothing, copy.LOADED))


def run(words: List[str]) -> int:
    copy.IS_SERVED = True
    return command_line.run(words)


def asks_nothing(words: List[str]) -> bool:
    """True for a command that writes and asks its caller nothing."""
    if not words or words[0] not in WRITE:
        return False
    try:
        given = vars(command_line.parser(words).parse_args(words))
    except SystemExit:
        return False
    return not given.get("interactive") and given.get("message", "") is not None and given.get("yes", True)
