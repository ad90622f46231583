"""What calls would do, before they are made."""

from __future__ import annotations

from typing import TYPE_CHECKING, Iterable, Optional, Sequence

from .answers import Outcome
from .changes import Change, command, list_of, record_command
from .errors import NothingToDo

if TYPE_CHECKING:
    from .questions import Questions


class WhatIf:
    """The calls that write, asked as questions: nothing changes, and a refusal is raised as of the call itself."""

    def __init__(self, of: Questions) -> None:
        self._of = of

    def branch(self, new: str, origin: str) -> Outcome:
        """What `Repository.branch` would do."""
        return self._of._what_if(command("branch", new, origin))

    def record(self, branch: str, name: str, changes: Sequence[Change]) -> Outcome:
        """What `Repository.record` would do."""
        return self._of._what_if(record_command(branch, name, changes))

    def pull(self, origin: str, to: str, names: Optional[Iterable[str]] = None, *, paths: Optional[Iterable[str]] = None) -> Outcome:
        """What `Repository.pull` would do. With paths the tree has these files alone, which takes less time."""
        return self._of._what_if(pull_command(self._of, origin, to, names), paths)

    def obliterate(self, branch: str, names: Iterable[str]) -> Outcome:
        """What `Repository.obliterate` would do."""
        return self._of._what_if(command("obliterate", branch, *list_of("names", names)))


def pull_command(of: Questions, origin: str, to: str, names: Optional[Iterable[str]]) -> bytes:
    """The command that pulls patches of these names, or all. One that lists none would pull all, so it is refused here, once
    both branches are known to exist."""
    listed = [] if names is None else list_of("names", names)
    if names is not None and not listed:
        of.missing(origin, to)
        raise NothingToDo()
    return command("pull", origin, to, *listed)
