"""save, read, open and picture: the commands that reach files."""

from __future__ import annotations

import os
from typing import Callable, Sequence

from .. import pictures
from ..errors import Error
from . import helptexts, interrupts
from .backend import Backend, Ended
from .commands import wrong_name
from .files import BadFile, check_target, drawn, lines_of, named_file, path_of, words_of_file, write_whole
from .progress import Progress
from .screen import Screen, counted
from .session import Session
from .unresolved import listed

Opener = Callable[[str], Backend]


class Conversation(Session):
    """A conversation that can save its history, read commands from files, and open other repositories."""

    def __init__(self, backend: Backend, screen: Screen, is_terminal: bool, opener: Opener) -> None:
        super().__init__(backend, screen, is_terminal)
        self._opener = opener
        for word, action in (("save", self.save), ("read", self.read), ("open", self.open)):
            self.own[word] = self._guarded(lambda rest, word=word, action=action: action(named_file(rest, word)))
        self.own["picture"] = self._guarded(self.picture)

    def save(self, path: str) -> None:
        """Writes the history as a script. A file that exists is replaced by the second save in a row."""
        check_target(path)
        if os.path.lexists(path) and not self.was_warned("save " + path):
            return self.warn("save " + path, "{} exists: the same save again replaces it".format(path))
        lines = listed(self.backend.ask, "keep")
        if lines is None:
            raise BadFile("there is not enough memory for the history; nothing is saved")
        write_whole(path, b"".join(it + b"\n" for it in lines))
        self.unsaved = 0
        self.screen.say("saved in {}: {}".format(path, counted(len(lines), "line")))

    def read(self, path: str) -> None:
        """Runs the commands of a file, up to the first that is refused or wrong."""
        lines, before, self.reading = lines_of(path), self.accepted, path
        try:
            end = self._read_lines(lines)
            if not end and self.body:
                self.fail(["{} ends inside a record: nothing of it is recorded".format(path)])
        finally:
            self.end_reading()
        where = "{}, line {}: the rest is not read;".format(path, end) if end else "read {}:".format(path)
        self.screen.say("{} {} accepted".format(where, counted(self.accepted - before, "call")))
        self.say_changed()

    def _read_lines(self, lines: Sequence[bytes]) -> int:
        """Takes lines, and returns the number of the one at which it stopped; 0 at the end."""
        errors, progress = self.errors, Progress()
        for at, line in enumerate(lines, 1):
            self.take(line)
            progress.tick(", line {} of {}".format(at, len(lines)))
            if self.errors > errors or interrupts.take_noted():
                progress.end()
                return at
        progress.end()
        return 0

    def open(self, path: str) -> None:
        """Goes on with the repository that a store keeps."""
        loss = self.loss()
        if self.is_terminal and loss and not self.was_warned("open " + path):
            return self.warn("open " + path, "{}The same open again goes on without.".format(loss))
        try:
            other = self._opener(path)
        except Ended as error:
            hint = "; read runs a file of commands" if "no store" in str(error) else ""
            raise BadFile("{}{}; the conversation goes on as before".format(error, hint)) from None
        except KeyboardInterrupt:
            raise BadFile("cancelled; the conversation goes on as before") from None
        self.backend.close()
        self.use(other)
        self.screen.say("opened {}: each accepted call is kept in it".format(path))

    def picture(self, rest: str) -> None:
        """Draws a branch, patches of it, or its unresolved conflicts. A file that exists is replaced by the same a second time."""
        words = words_of_file(rest)
        if len(words) < 2 or not words[0]:
            raise BadFile(helptexts.OWN_LINES["ask"][0])
        path, branch, names = path_of(words[0]), words[1], words[2:]
        wrong = wrong_name(words[1:])
        if wrong:
            raise BadFile(wrong)
        check_target(path)
        if os.path.lexists(path) and not self.was_warned("picture " + path):
            return self.warn("picture " + path, "{} exists: the same picture again replaces it".format(path))
        is_open = names == ["open"] and b"open" not in (listed(self.backend.ask, "names", branch) or [])
        try:
            dot = pictures.picture(self.backend.ask, branch, [] if is_open else names, is_open)
        except (Error, ValueError) as error:
            raise BadFile(str(error)) from None
        write_whole(path, drawn(dot, path))
        self.screen.say("drawn in {}".format(path))

    def _guarded(self, action: Callable[[str], None]) -> Callable[[str], None]:
        def run(rest: str) -> None:
            try:
                action(rest)
            except BadFile as error:
                self.fail([str(error)])
        return run
