"""What is raised where something was not done: one class for each refusal, by the core's names."""

from __future__ import annotations

from typing import Dict, List, Optional, Type


class Error(Exception):
    """Something that was asked was not done."""


class Refused(Error):
    """The repository refuses the call. Nothing has changed.

    `number` is that of the refusal, `names` are the branches and patches that it names, and `why` is the cause in words:
    the lines that the command `why` answers. It is empty for a view and for `whatif`.
    """

    number = 0
    message = "refused"

    def __init__(self, *names: str, why: str = "") -> None:
        super().__init__(*names)
        self.names = names
        self.why = why

    def __str__(self) -> str:
        return self.message.format(*self.names)


class _OfBranch(Refused):
    @property
    def branch(self) -> str:
        """The branch that the refusal names."""
        return self.names[0]


class _OfPatch(Refused):
    @property
    def patch(self) -> str:
        """The patch that the refusal names."""
        return self.names[0]


class NoBranch(_OfBranch):
    """There is no branch of this name."""
    number, message = 4, "there is no branch {}"


class BranchExists(_OfBranch):
    """There is a branch of this name already."""
    number, message = 5, "there is a branch {}"


class PatchExists(_OfPatch):
    """Some branch has a patch of this name."""
    number, message = 6, "some branch has a patch {}"


class NoPatch(_OfPatch):
    """The branch has no patch of this name."""
    number, message = 7, "the branch has no patch {}"


class NothingToDo(Refused):
    """The branch has all that would be pulled."""
    number, message = 8, "the branch has all that would be pulled"


class TooLarge(Refused):
    """A limit of the repository would be passed."""
    number, message = 9, "a limit would be exceeded"


class DoesNotApply(Refused):
    """A change does not apply to the files as they are."""
    number, message = 10, "the change does not apply"


class Depends(_OfPatch):
    """A patch depends on another one, and only one of the two was named."""
    number, message = 11, "{} depends on {}"

    @property
    def on(self) -> str:
        """The patch on which it depends."""
        return self.names[1]


class Diverged(_OfPatch):
    """Both branches have this patch, but one can't bring it before what only that branch has, or their forms differ."""
    number, message = 12, "the branches have diverged at {}"


class NoMerge(Refused):
    """Two patches do not merge."""
    number, message = 13, "{} and {} do not merge"

    @property
    def left(self) -> str:
        """The patch of the branch that pulls."""
        return self.names[0]

    @property
    def right(self) -> str:
        """The patch of the other branch."""
        return self.names[1]


class SameBranch(_OfBranch):
    """A branch does not pull from itself."""
    number, message = 14, "{} does not pull from itself"


class Fault(Error):
    """The text is no command. Nothing has changed.

    `line` counts from 1, `kind` is what is wrong there, as `bad name`, and `why` is the cause in words, as of `Refused`.
    """

    def __init__(self, line: int, kind: str, why: str = "") -> None:
        super().__init__(line, kind)
        self.line = line
        self.kind = kind
        self.why = why

    def __str__(self) -> str:
        return "line {}: {}".format(self.line, self.kind)


class OutOfMemory(Error, MemoryError):
    """There was not enough memory. Nothing has changed, and the same can be asked again."""


class OutcomeUnknown(Error, MemoryError):
    """The answer is not whole. If memory ran out, exactly the first `executed` commands of the text were executed; blank lines
    and comments count. `executed` is None if nobody knows: a shared log did not answer, and `history` says what was done."""

    def __init__(self, message: str = "", executed: Optional[int] = None) -> None:
        super().__init__(message)
        self.executed = executed


class Closed(Error):
    """The repository or the view is closed."""


class Unexpected(Error):
    """The library answered in a form that this package does not know."""


REFUSALS: Dict[int, Type[Refused]] = {
    refusal.number: refusal
    for refusal in (NoBranch, BranchExists, PatchExists, NoPatch, NothingToDo, TooLarge, DoesNotApply, Depends, Diverged,
                    NoMerge, SameBranch)
}


def error_of(first: List[str], why: str = "") -> Error:
    """The error that the words of a response's first line say."""
    if first == ["memory"]:
        return OutOfMemory("out of memory")
    if first[0] == "fault" and len(first) > 2 and first[1].isdigit():
        return Fault(int(first[1]), " ".join(first[2:]), why)
    if first[0] == "refused" and len(first) > 1 and first[1].isdigit():
        refusal, names = REFUSALS.get(int(first[1])), first[2:]
        if refusal is not None and refusal.message.count("{}") == len(names):
            return refusal(*names, why=why)
    return Unexpected(" ".join(first))
