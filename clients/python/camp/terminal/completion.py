"""What Tab offers: the words of commands, and the branches, patches, paths and files that may stand next; and a file of all of
them for rlwrap, which knows no places."""

from __future__ import annotations

import glob
import os
from typing import Callable, Dict, List, Sequence, Tuple

from .commands import CHANGES, ENDINGS, OWN, SHAPES, words_of
from .session import Session
from .unresolved import Ask, listed

FILES = {"save", "read", "open", ".save", ".read", ".open"}
IN_BODY = ("end", "cancel", "help", "why", "quit")
# Words of camp_shell that begin no command.
OTHER_WORDS = ("end", "done", "quit", "refused")
IN_GROUP = ("add", "remove", "edit", "done", "cancel", "help", "why", "quit")


class Completion:
    """Completes words in a session. Answers are kept until the next call is accepted."""

    def __init__(self, session: Session) -> None:
        self._session = session
        self._found: Dict[str, List[str]] = {}
        self._state: Tuple[object, int] = (None, 0)

    def complete(self, before: str, word: str) -> List[str]:
        """The words that begin with `word` and may stand after the text before it."""
        words = words_of(before.encode("utf-8", "surrogateescape"))
        body = self._session.body
        if body and body.is_in_edit:
            # In a line of a file a tab is a tab.
            if before or word[:1] in ("", "+", "-"):
                return [word + "\t"]
            choices: Sequence[str] = IN_BODY
        elif body:
            choices = IN_GROUP if not words else self._paths(body.first) if len(words) == 1 else ()
        else:
            if words and (words[0] in FILES or words in (["picture"], [".picture"])):
                choices = files(word) if words[0] != "open" else [*self._list("branches"), *files(word)]
            else:
                choices = self._choices(words)
        return [it + (" " if not it.endswith("/") else "") for it in choices if it.startswith(word)]

    def _choices(self, words: Sequence[str]) -> Sequence[str]:
        """The words that may stand after these."""
        if not words or words == ["whatif"]:
            return sorted({*SHAPES, *(OWN if not words else ())} - {"?"})
        if words[0] == "whatif":
            return self._choices(words[1:])
        if words[0] == "picture":
            return self._list("branches") if len(words) == 2 else ["open", *self._list("names", words[2])]
        shape = SHAPES.get(words[0], ())
        at = len(words) - 1
        kind = shape[at] if at < len(shape) else shape[-1] if shape and shape[-1].endswith("..") else ""
        return self._of_kind(kind.split(" ")[0], words)

    def _of_kind(self, kind: str, words: Sequence[str]) -> Sequence[str]:
        if kind in ("BRANCH", "FROM", "TO"):
            return self._list("branches")
        if kind == "NAME":
            return self._list("names", words[1])
        if kind == "MISSING":
            return self._list("missing", words[1], words[2])
        if kind == "CHANGE":
            return CHANGES
        if kind == "PATH" and words[0] == "record" and (len(words) != 4 or words[3] == "group"):
            return ()
        if kind == "PATH":
            return self._paths(" ".join(words).encode("utf-8", "surrogateescape"))
        return sorted({*SHAPES, *CHANGES, *ENDINGS, *OWN, "refused"} - {"?"}) if kind == "TOPIC" else ()

    def _paths(self, command: bytes) -> List[str]:
        """The files of the branch that a command names."""
        words = words_of(command)
        words = words[1:] if words[:1] == ["whatif"] else words
        if len(words) < 2:
            return []
        return self._once("tree " + words[1], lambda: paths_of(self._session.backend.ask, words[1]))

    def _list(self, *question: str) -> List[str]:
        """The names that a question is answered."""
        lines = lambda: [it.decode("ascii", "replace") for it in listed(self._session.backend.ask, *question) or []]
        return self._once(" ".join(question), lines)

    def _once(self, question: str, answer: Callable[[], List[str]]) -> List[str]:
        """The answer to a question, which is asked once until a call is accepted."""
        state = (self._session.backend, self._session.accepted)
        if state != self._state:
            self._found, self._state = {}, state
        if question not in self._found:
            self._found[question] = answer()
        return self._found[question]


def paths_of(ask: Ask, branch: str) -> List[str]:
    """The files of a branch."""
    lines = ask("tree {}\n".format(branch).encode("utf-8", "surrogateescape")).split(b"\n")
    return [it.split(b" ")[1].decode("ascii", "replace") for it in lines if it.startswith(b"file ")]


def files(word: str) -> List[str]:
    """The files and folders whose paths begin with a text."""
    found = sorted(glob.glob(glob.escape(os.path.expanduser(word)) + "*"))
    return [it + "/" if os.path.isdir(it) else it for it in found if " " not in it]


def all_words(ask: Ask) -> List[str]:
    """The words of camp_shell's commands, and the branches, patches and paths of the repository."""
    branches = [it.decode("ascii", "replace") for it in listed(ask, "branches") or []]
    names = {it.decode("ascii", "replace") for branch in branches for it in listed(ask, "names", branch) or []}
    paths = {path for branch in branches for path in paths_of(ask, branch)}
    return sorted({*SHAPES, *CHANGES, *OTHER_WORDS, *branches, *names, *paths})
