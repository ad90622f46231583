"""Repositories, which calls write, and views of them."""

from __future__ import annotations

from typing import Callable, Iterable, List, Optional, Sequence

from ._library import LIBRARY, Handle
from .answers import AcceptedCall, read_history
from .changes import Change, Text, command, join_lines, list_of, record_command, to_bytes
from .diffs import Content, diff
from .errors import Error, OutcomeUnknown, OutOfMemory, error_of
from .questions import Questions, check
from .whatif import WhatIf, pull_command


class View(Questions):
    """A repository as it was at one moment, from `Repository.view`. It is asked questions alone, on any thread, while the
    repository goes on. It keeps what it shows until it is closed."""

    def again(self) -> "View":
        """One more view of the same."""
        return _opened(LIBRARY.camp_view_again, self)


DEFAULT_CATCHES, DEFAULT_BRANCHES = 4096, 256
_MOST_CATCHES, _MOST_BRANCHES = 1 << 24, 1 << 16


class Calls(Questions):
    """What can be asked and written. A method that writes returns the number of the call among all that were accepted, counted
    from 1."""

    _kind = "camp"

    def branch(self, new: str, origin: str) -> int:
        """Makes a branch that is a copy of another."""
        return self._write(command("branch", new, origin))

    def record(self, branch: str, name: str, changes: Sequence[Change]) -> int:
        """Records a patch of 1 to 64 changes, each of which applies to what those before it leave."""
        return self._write(record_command(branch, name, changes))

    def record_text(self, branch: str, name: str, path: str, old: Optional[Content], new: Optional[Content]) -> int:
        """Records what changed between two texts of a file, or lists of its lines; None says that the file does not exist.
        See `diff`, which makes the changes. Equal texts are a ValueError."""
        changes = diff(path, old, new)
        if not changes:
            raise ValueError("nothing to record: both texts of {} have the same lines".format(path))
        return self.record(branch, name, changes)

    def pull(self, origin: str, to: str, names: Optional[Iterable[str]] = None) -> int:
        """Brings patches of one branch into another: those of these names, or without a list all that it lacks. An empty
        list is `NothingToDo`."""
        return self._write(pull_command(self, origin, to, names))

    def obliterate(self, branch: str, names: Iterable[str]) -> int:
        """Takes patches out of a branch."""
        return self._write(command("obliterate", branch, *list_of("names", names)))

    @property
    def executed(self) -> int:
        """How many commands of the last text were executed; blank lines and comments count. After `OutcomeUnknown` these are its
        first ones."""
        with self._lock:
            return self._call("executed")

    def _out_of_memory(self, message: str) -> Error:
        executed = self._call("executed")
        return OutcomeUnknown(message, executed) if executed else OutOfMemory(message)

    def _write(self, text: bytes) -> int:
        return self._ask(text).count("ok")

    def _cause(self, text: bytes) -> str:
        """Asks the command, which changed nothing, once more together with `why`: the lock is still held."""
        try:
            response = self._respond(text + b"why\n")
        except Error:
            return ""
        _, _, cause = response.partition(b"\nwhy ")
        return join_lines(cause.split(b"\n")[1:-1])


class Repository(Calls):
    """A repository of named patches. At first it has one branch, `main`, without patches; or what `keep` wrote of another
    one. A branch has at most `catches` changes, 1 to 16,777,216, and there are at most `branches` branches, 1 to 65,536."""

    def __init__(self, script: Text = b"", *, catches: int = DEFAULT_CATCHES, branches: int = DEFAULT_BRANCHES) -> None:
        super().__init__()
        self._open(catches, branches)
        try:
            self._load(to_bytes(script))
        except BaseException:
            self.close()
            raise

    def begin_again(self, *, catches: int = DEFAULT_CATCHES, branches: int = DEFAULT_BRANCHES) -> None:
        """Becomes a new repository with these limits: what it had is gone."""
        with self._lock:
            LIBRARY.camp_close(self._handle)
            self._open(catches, branches)

    def _open(self, catches: int, branches: int) -> None:
        if not (1 <= catches <= _MOST_CATCHES and 1 <= branches <= _MOST_BRANCHES):
            raise ValueError("catches is 1 to 16777216, branches 1 to 65536")
        check(LIBRARY.camp_open_with(self._handle, catches, branches), OutOfMemory("out of memory"))

    def view(self) -> View:
        """A view of the repository as it is now. That takes a count, however large the repository is."""
        return _opened(LIBRARY.camp_look, self)

    def history(self) -> List[AcceptedCall]:
        """The accepted calls, in their order."""
        return read_history(self._listed("history"))

    def keep(self) -> bytes:
        """A script that gives the repository back, as `Repository(script)`."""
        return b"".join(line + b"\n" for line in self._listed("keep").rest())

    def _load(self, script: bytes) -> None:
        """Runs the commands of a script, each of which has to be accepted."""
        for line in self.ask(script).split(b"\n")[:-1]:
            words = line.decode("ascii", "replace").split(" ")
            if words[0] != "ok":
                raise error_of(words)


def _opened(function: Callable[[Handle, Handle], int], of: Questions) -> View:
    view = View()
    with of._lock:
        check(function(of._handle, view._handle), OutOfMemory("out of memory"))
    return view
