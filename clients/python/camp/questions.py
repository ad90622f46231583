"""What a repository and a view have in common: they are asked texts, and questions with typed results."""

from __future__ import annotations

import ctypes
import threading
from typing import Any, Iterable, List, Optional, TypeVar, Union

from . import answers
from ._library import DONE, LIBRARY, MEMORY, NOT_OPEN, Handle, require_library
from .answers import AnnotatedLine, Answer, Conflict, Hunk, Outcome, Shown, Tree
from .changes import Change, Text, command, list_of, to_bytes
from .errors import Closed, Error, OutOfMemory, Unexpected, error_of
from .whatif import WhatIf

Self = TypeVar("Self", bound="Questions")


def check(code: int, at_memory: Error) -> None:
    """Raises what a code of the library means. How much was done when memory ran out depends on the function."""
    if code == MEMORY:
        raise at_memory
    if code == NOT_OPEN:
        raise Closed("closed")
    if code != DONE:
        raise Unexpected("code {} of the library".format(code))


class Questions:
    """A repository or a view, which answers questions. A branch that does not exist is `NoBranch`, a patch that its branch
    lacks `NoPatch`. A question about a file that does not exist is answered by None.

    It serves one call at a time, and has a lock for that: threads may share it. Calls let go of Python's own lock while the
    library works."""

    # How the functions of the library for it begin.
    _kind = "camp_view"

    def __init__(self) -> None:
        # Where there is none, this is raised before there is anything to close.
        require_library()
        self._handle = Handle()
        self._lock = threading.RLock()

    def __enter__(self: Self) -> Self:
        return self

    def __exit__(self, *_: object) -> None:
        self.close()

    def __del__(self) -> None:
        if hasattr(self, "_lock"):
            self.close()

    def close(self) -> None:
        """Closes it. What is closed stays so."""
        with self._lock:
            self._call("close")

    def ask(self, text: Text) -> bytes:
        """Runs the commands of a text, which is a conversation of its own, and returns their responses, one after the other.
        A refusal or a fault is a response as any other, and raises nothing."""
        with self._lock:
            return self._respond(to_bytes(text))

    def tree(self, branch: str) -> Tree:
        """The files of a branch, each with its lines."""
        answer = self._ask(command("tree", branch))
        return answers.read_tree(answer, answer.count("tree"))

    def names(self, branch: str) -> List[str]:
        """The patches of a branch, in its order."""
        return answers.read_names(self._listed("names", branch))

    def conflicts(self, branch: str) -> List[Conflict]:
        """The pairs of patches of a branch that are in conflict, unresolved or resolved."""
        return answers.read_conflicts(self._listed("conflicts", branch))

    def open(self, branch: str) -> List[Conflict]:
        """The pairs in conflict that are unresolved."""
        return answers.read_conflicts(self._listed("open", branch))

    def branches(self) -> List[str]:
        """The branches, in the order in which they were made."""
        return answers.read_names(self._listed("branches"))

    def file(self, branch: str, path: str) -> Optional[List[bytes]]:
        """The lines of a file."""
        answer = self._of_file("file", branch, path)
        return None if answer is None else [answers.unsigned(line, b"=") for line in answer.rest()]

    def annotate(self, branch: str, path: str) -> Optional[List[AnnotatedLine]]:
        """The lines of a file, and the patch that put each there."""
        answer = self._of_file("annotate", branch, path)
        return None if answer is None else answers.read_annotated(answer)

    def marks(self, branch: str, path: str) -> Optional[List[Union[bytes, Hunk]]]:
        """A file with its unresolved sides: lines, and hunks where sides differ."""
        answer = self._of_file("marks", branch, path)
        return None if answer is None else answers.read_marks(answer)

    def needs(self, branch: str, names: Iterable[str]) -> List[str]:
        """Patches of a branch and all that they depend on there, in its order."""
        return answers.read_names(self._listed("needs", branch, *list_of("names", names)))

    def held(self, branch: str, names: Iterable[str]) -> List[str]:
        """Patches of a branch and all that depends on them there, which has to be obliterated with them."""
        return answers.read_names(self._listed("held", branch, *list_of("names", names)))

    def missing(self, origin: str, to: str) -> List[str]:
        """The patches that one branch has and another lacks."""
        return answers.read_names(self._listed("missing", origin, to))

    def along(self, origin: str, to: str, names: Iterable[str]) -> List[str]:
        """What a pull of these patches has to list, in the order of the branch that they come from."""
        return answers.read_names(self._listed("along", origin, to, *list_of("names", names)))

    def show(self, branch: str, name: str) -> Shown:
        """A patch as it stands in a branch. One in conflict changes what it takes back, or nothing; see `side`."""
        return answers.read_shown(self._listed("show", branch, name))

    def side(self, branch: str, name: str) -> List[Change]:
        """What a patch in conflict would change at the end of the branch. A record of these changes, 1 to 64, takes its
        side."""
        return answers.read_changes(self._listed("side", branch, name))

    def graph(self, branch: str, names: Iterable[str] = ()) -> str:
        """How the patches depend on each other, as DOT for Graphviz; with names, these, what they need and what needs them."""
        listed = self._listed("graph", branch, *list_of("names", names))
        return "".join(name + "\n" for name in answers.read_names(listed))

    def picture(self, branch: str, names: Iterable[str] = (), *, only_open: bool = False) -> str:
        """A picture of a branch as DOT for Graphviz, for people: with a legend, paths, conflicts, and tooltips; of more than 250
        patches by conflicts and files. With names as `graph`; `only_open`: unresolved conflicts and what they need."""
        from .pictures import picture
        return picture(self.ask, branch, [to_bytes(it).decode("utf-8", "surrogateescape") for it in list_of("names", names)], only_open)

    @property
    def whatif(self) -> WhatIf:
        """What calls would do: `repository.whatif.pull("ben", "main")`."""
        return WhatIf(self)

    def _what_if(self, text: bytes, paths: Optional[Iterable[str]] = None) -> Outcome:
        """What a call would do; its refusal is raised. The library gives no cause of that, since nothing was refused."""
        response = self._ask(b"whatif " + text, paths)
        response.count("whatif")
        words = response.next_words()
        if words[0] != "ok":
            raise error_of(words)
        return answers.read_outcome(answers.number(words[-1]), response)

    def _listed(self, question: str, *words: Text) -> Answer:
        """The lines of the answer to a question, of which it says how many there are."""
        answer = self._ask(command(question, *words))
        answer.count(question)
        return answer

    def _of_file(self, question: str, branch: str, path: str) -> Optional[Answer]:
        """As `_listed`; None where the file does not exist."""
        answer = self._ask(command(question, branch, path))
        words = answer.next_words()
        if words == ["no", "file"]:
            return None
        if len(words) != 2 or words[0] != question:
            raise Unexpected(" ".join(words))
        return answer

    def _ask(self, text: bytes, paths: Optional[Iterable[str]] = None) -> Answer:
        """The response to one command, or what it raises; with paths that to a `whatif`, with these files alone in its tree."""
        with self._lock:
            response = self._respond(text)
            answer = Answer(response if paths is None else answers.with_files(response, paths))
            words = answer.next_words()
            if words[0] not in ("refused", "fault", "memory"):
                answer.begin_again()
                return answer
            raise error_of(words, "" if words[0] == "memory" else self._cause(text))

    def _cause(self, text: bytes) -> str:
        """Why a command is refused or has a fault. A view is not asked that."""
        return ""

    def _call(self, function: str, *rest: Any) -> Any:
        return getattr(LIBRARY, "{}_{}".format(self._kind, function))(self._handle, *rest)

    def _respond(self, text: bytes) -> bytes:
        """The responses to a text. The lock is held."""
        code = self._call("ask", text, len(text))
        if code != DONE:
            check(code, self._out_of_memory("out of memory"))
        length = ctypes.c_size_t()
        at = self._call("answer_bytes", ctypes.byref(length))
        try:
            return ctypes.string_at(at, length.value)
        except MemoryError:
            raise self._out_of_memory("out of memory for an answer of {} bytes".format(length.value)) from None

    def _out_of_memory(self, message: str) -> Error:
        """What is raised if memory ran out for an answer. A view has changed nothing."""
        return OutOfMemory(message)
