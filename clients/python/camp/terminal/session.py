"""The conversation: what each line does, in a body and outside of one, and what is said to it."""

from __future__ import annotations

import os
from typing import Callable, Dict, List, Optional, Sequence

from . import helptexts
from .backend import Backend, NotDone
from .bodies import Body
from .causes import NONE_YET, Cause, split_cause
from .commands import CHANGES, SHAPES, begins_body, call_of, is_command, is_name, nearest, no_command, no_sign, words_of
from .screen import ALARM, HEAD, PLAIN, Screen, counted
from .unresolved import Line, Watch, foresee, listed

MAIN_PROMPT, BODY_PROMPT = "camp> ", "....> "
LEFT_OUT = "The line is left out, and the body goes on."
NOT_RECORDED = "Nothing of the record is recorded."
CANCELLED = "cancelled: nothing is recorded"
MEMORY, OUT_OF_MEMORY = b"memory\n", "out of memory: nothing has changed, and you can ask again"


class Session:
    """The state of a conversation. `take`, `interrupt` and `end_of_input` are what a person does."""

    def __init__(self, backend: Backend, screen: Screen, is_terminal: bool) -> None:
        self.screen, self.is_terminal = screen, is_terminal
        self.is_over, self.status = False, 0
        self.body: Optional[Body] = None
        self.cause: Optional[Cause] = None
        # Of a file that is read: its path, while its lines are taken.
        self.reading: Optional[str] = None
        self._changed: Dict[str, None] = {}
        # How many lines were refused or wrong, how many calls were accepted, and the command that is not answered yet.
        self.errors, self.accepted, self.pending = 0, 0, b""
        # The kind of a body whose first line is wrong, and how many lines of it were skipped.
        self._skipped_kind, self._skipped = "", 0
        # What the last thing said was a warning of, and what that was before the line that is taken.
        self._warns_of, self._warned_of = "", ""
        self.own: Dict[str, Callable[[str], None]] = {
            "quit": lambda _: self.leave("quit"), "exit": lambda _: self.leave("exit"), "help": self.help, "?": self.help,
            "why": lambda _: self.why()}
        self.use(backend)

    def use(self, backend: Backend) -> None:
        """Goes on with another repository."""
        self.backend, self.unsaved = backend, 0
        self.watch = Watch(backend.ask, backend.is_shared)
        self._usage: List[str] = []

    def prompt(self) -> str:
        return BODY_PROMPT if self.body else MAIN_PROMPT

    def take(self, line: bytes) -> None:
        """Does what a line says."""
        self._begin()
        if self.body:
            self._take_in_body(self.body, line)
        else:
            self._take_command(line)

    def interrupt(self, had_text: bool) -> None:
        """Ctrl-C: cancels the line, or the body; at an empty prompt the second one ends."""
        self._begin()
        self._skipped_kind = ""
        if had_text:
            return
        if self.body:
            self.cancel()
        elif self.was_warned("end"):
            self.is_over = True
        else:
            self.warn("end", "{}Ctrl-C again ends.".format(self.loss()))

    def end_of_input(self) -> None:
        """Ctrl-D, or the end of a pipe."""
        self._begin()
        if self.body and not self.is_terminal:
            self.fail(["the input ends inside a record: nothing of it is recorded"])
        self.leave("Ctrl-D")

    def leave(self, how: str) -> None:
        """Ends; where something would be lost, only the second time in a row."""
        loss = self.loss()
        if self.is_terminal and loss and not self.was_warned("end"):
            self.warn("end", "{}{} again ends.".format(loss, how))
        else:
            self.is_over = True

    def cancel(self) -> None:
        self.body = None
        self.screen.say(CANCELLED)

    def fail(self, lines: Sequence[str]) -> None:
        """Says what is wrong."""
        self.errors += 1
        for at, line in enumerate(lines):
            self.screen.say(line, PLAIN if at else ALARM, "" if at else "  ")

    def help(self, topic: str) -> None:
        """All commands, in groups, or more about one."""
        if not topic:
            for title, lines in helptexts.grouped(self.usage()):
                self.screen.say(title, HEAD)
                for line in lines:
                    self.screen.say("  " + line, indent="      ")
            return
        words = topic.split()
        self.screen.say_all(helptexts.TOPICS.get(words[0], ()))
        if words[0] not in helptexts.TOPICS or words[0] in SHAPES:
            asked = topic if words[0] == "refused" else words[0]
            answer, why = split_cause(self.backend.ask("help {}\nwhy\n".format(asked).encode("utf-8", "surrogateescape")))
            if why:
                return self.fail(Cause(answer.decode().rstrip("\n"), why).in_words() if words[0] == "refused" else [no_command(words[0])])
            self.screen.say_all(answer.decode("utf-8", "surrogateescape").split("\n")[1:-1])

    def why(self) -> None:
        """The whole cause of what was refused or wrong last."""
        if not self.cause:
            return self.screen.say(NONE_YET)
        self.screen.say_all([it for it in self.cause.lines if it.startswith(">")] + self.cause.in_words())

    def usage(self) -> List[str]:
        """The lines of `help`."""
        if not self._usage:
            self._usage = [it.decode("utf-8", "replace") for it in listed(self.backend.ask, "help") or []]
        return self._usage

    def warn(self, what: str, text: str) -> None:
        """Says what would be lost. If the next thing is the same once more, it is done."""
        self._warns_of = what
        self.screen.say(text)

    def was_warned(self, what: str) -> bool:
        """Whether the thing before the line that is taken was this warning."""
        return self._warned_of == what

    def loss(self) -> str:
        """What would be lost by an end now."""
        body = "The record that is not ended would be lost. " if self.body else ""
        if not self.unsaved or self.backend.kept_in:
            return body
        return body + "{} would be lost, since nothing is kept: save FILE writes the history. ".format(counted(self.unsaved, "call"))

    def _begin(self) -> None:
        self._warned_of, self._warns_of = self._warns_of, ""

    def _take_command(self, line: bytes) -> None:
        words = words_of(line)
        if not words or words[0].startswith("#") or self._is_skipped(line, words):
            return
        word = words[0][1:] if words[0][:1] == "." and words[0][1:] in self.own else words[0]
        asks_open = words[0] == "open" and (len(words) == 1 or len(words) == 2 and is_name(words[1]))
        if word in self.own and not asks_open:
            if self.reading:
                return self.fail(["{} is for the terminal: a file has calls and questions".format(word)])
            return self.own[word](line.decode("utf-8", "surrogateescape").strip(" \t")[len(words[0]):].strip(" \t"))
        if begins_body(words) and is_command(word):
            answer = self.backend.ask(line + b"\n")
            if answer in (b"fault 1 edit not ended\n", b"fault 1 group not ended\n"):
                self.body = Body(line, answer == b"fault 1 group not ended\n")
                return
            if answer == MEMORY:
                return self.fail([OUT_OF_MEMORY])
        self.execute(line + b"\n", words)

    def _take_in_body(self, body: Body, line: bytes) -> None:
        word = line.decode("utf-8", "surrogateescape").strip(" \t")
        first, _, rest = word.partition(" ")
        if not body.is_signed(line) and not self.reading:
            if word == "cancel":
                return self.cancel()
            if first in ("help", "?", "why", "quit", "exit") and (first in ("help", "?") or not rest):
                return self.own[first](rest.strip())
        if body.is_skipped(line):
            return
        if not body.is_right(line):
            if body.is_full() and word != "done":
                return self._leave_out(body, ["a group has 64 changes at most: write done"])
            answer, why = split_cause(self.backend.ask(body.check(line)))
            if why and answer.startswith(b"fault "):
                self.cause = Cause(answer.decode().rstrip("\n"), why)
                return self._leave_out(body, [no_sign(word)] if body.lacks_sign(line) else self.cause.in_words())
        if body.put(line):
            self.body = None
            self.execute(body.text(), words_of(body.first))

    def _leave_out(self, body: Body, lines: Sequence[str]) -> None:
        """Says what is wrong in a line of a body. Where nobody reads that, nothing of the record is recorded."""
        is_read = self.is_terminal and not self.reading
        self.fail([*lines, LEFT_OUT if is_read else NOT_RECORDED])
        if not is_read:
            self.body, self._skipped_kind, self._skipped = None, "group" if body.is_group else "edit", 0

    def execute(self, text: bytes, words: Sequence[str]) -> None:
        """Asks a whole command, and shows its answer and what it changed."""
        call = call_of(words)
        self.pending = text
        if call and call.branch not in self._changed:
            self.watch.before(call)
        try:
            answer, why = split_cause(self.backend.ask(text + b"why\n"))
        except NotDone:
            self.pending = b""
            raise
        self.pending = b""
        self.say_news()
        if why:
            if call:
                self.watch.forget(call)
            return self._refuse(Cause(answer.decode("utf-8", "replace").rstrip("\n"), why), words)
        if answer == MEMORY:
            return self.fail([OUT_OF_MEMORY])
        if not (self.reading and answer.startswith(b"ok ")):
            self.screen.show(answer)
        if call and answer.startswith(b"ok "):
            self.unsaved, self.accepted = self.unsaved + 1, self.accepted + 1
            if self.reading:
                self._changed[call.branch] = None
            else:
                self._say_changes(self.watch.after(call))
        if words[0] == "whatif":
            self._foresee(answer, words[1:])

    def say_news(self) -> None:
        """Says what the backend has learnt, if it learns anything from others."""
        for line in getattr(self.backend, "news", list)():
            self.screen.say(line, indent="  ")

    def end_reading(self) -> None:
        """Goes on with what is typed."""
        self.reading, self.body, self._skipped_kind = None, None, ""

    def say_changed(self) -> None:
        """Says what the calls of a file that was read have changed, all in all."""
        for branch in self._changed:
            self._say_changes(self.watch.changes(branch))
        self._changed = {}

    def _say_changes(self, lines: Sequence[Line]) -> None:
        for line, style in lines:
            self.screen.say(line, style, "  ")

    def _foresee(self, answer: bytes, words: Sequence[str]) -> None:
        """Says what the answer of `whatif` means for conflicts, or why it is a refusal."""
        first = answer.split(b"\n")[1].decode("utf-8", "replace")
        if call_of(words) and first.startswith("ok "):
            self._say_changes(foresee(answer))
        elif first.startswith("refused "):
            meaning = listed(self.backend.ask, "help", *first.split(" ")[:2]) or []
            self.screen.say_all(Cause(first, [it.decode("utf-8", "replace") for it in meaning]).in_words())

    def _refuse(self, cause: Cause, words: Sequence[str]) -> None:
        self.cause = cause
        self.fail(self._fault(cause, words) if cause.is_fault else cause.in_words())
        if words[0] == "open" and os.path.exists(words[-1]):
            self.screen.say("open ./{0} opens the file {0}".format(words[-1]))
        if cause.is_fault and begins_body(words):
            self._skipped_kind, self._skipped = begins_body(words) or "", 0

    def _fault(self, cause: Cause, words: Sequence[str]) -> List[str]:
        """What is said of a line with a fault."""
        rest = list(words[1:]) if words[0] == "whatif" and len(words) > 1 else list(words)
        if cause.kind == "unknown command" and rest[0] not in ("client", "help"):
            if rest[0] == "record" and len(rest) > 3:
                found = nearest(rest[3], CHANGES)
                return ["a record has add, remove, edit or group after its name, not {}{}".format(
                    rest[3], ": did you mean {}?".format(found) if found else "")]
            if rest[0] not in SHAPES and rest[0][:1] not in ("+", "-"):
                return [no_command(rest[0])]
        if cause.kind == "wrong number of words" or rest == ["whatif"]:
            return helptexts.usage_of(rest, self.usage()) or cause.in_words()
        if cause.kind == "unknown command" and rest[0] not in SHAPES:
            return cause.in_words()[:1]
        return cause.in_words()

    def _is_skipped(self, line: bytes, words: Sequence[str]) -> bool:
        """Whether a line belongs to a body whose first line was wrong."""
        if not self._skipped_kind:
            return False
        is_change = self._skipped_kind == "group" and words[0] in ("add", "remove", "edit")
        if line[:1] not in (b"+", b"-") and words[0] not in ("end", "done") and not is_change:
            self._skipped_kind = ""
            return False
        self._skipped += 1
        if line.strip(b" \t") == (b"done" if self._skipped_kind == "group" else b"end"):
            self._skipped_kind = ""
            self.screen.say("its body is skipped: {}".format(counted(self._skipped, "line")))
        return True
