"""A member of a log as a model in Python, of which the wrong members of check_members.py are made: the library's can't be wrong in
their ways."""

from __future__ import annotations

import collections
import os
from typing import Any, Deque, Dict, List, NamedTuple, Optional, Sequence, Tuple

from camp import Repository
from camp._entries import CALLS, NOTE, calls_of
from camp.logs import limits_of
from camp.shared import NOT_READ, NOT_TAKEN, Stopped, what_if

MAX_CALLS = 256
MAX_BYTES = 1 << 20


class Request(NamedTuple):
    """A command that a member was asked, and what its answer is returned with."""
    call: bytes
    at_least: int
    request: Any
    note: bytes
    is_sure: bool

    def text(self) -> bytes:
        """The command as an entry has it, behind its note."""
        return b"".join(NOTE + b" " * bool(line) + line + b"\n" for line in self.note.split(b"\n") if self.note) + self.call


class ModelMember:
    """Decides each entry of a log where it stands, each tag once, in Python. `answers` has (request, answer, place), in the order of requests;
    a place is an index of the log and which call of the entry, or for what was answered at what was read the index alone."""

    def __init__(self, seat: Optional[str] = None):
        self.repository, self.seat = Repository(), seat or os.urandom(16).hex()
        self.index, self.count, self.numbers = 0, 0, {}  # type: int, int, Dict[str, int]
        self.under_way: List[Request] = []
        self.queue: Deque[Request] = collections.deque()
        self.answers: Deque[Tuple[Any, bytes, Any]] = collections.deque()
        self.stopped: Optional[Stopped] = None
        self.notes: Dict[str, bytes] = {}

    def ask(self, call: bytes, at_least: int = 0, request: Any = None, note: bytes = b"", is_sure: bool = False) -> None:
        """Asks a command: a call, with its note, or a question; at a history of so many calls at least. A call that is sure to be
        accepted at what was read is not tried first."""
        self.queue.append(Request(call, at_least, request, note, is_sure))

    def number(self) -> int:
        """The number of the next entry under this seat."""
        return self.numbers.get(self.seat, 0) + 1

    def want(self) -> Tuple:
        """What it wants of the log now: ("append", tag, text), ("read",) or ("nothing",)."""
        self._proceed()
        if self.under_way:
            head = b"entry %s %d\n" % (self.seat.encode(), self.number())
            return "append", "{}/{}".format(self.seat, self.number()), head + b"".join(it.text() for it in self.under_way)
        return ("read",) if self.queue else ("nothing",)

    def _proceed(self) -> None:
        if self.under_way:
            return
        while self.queue:
            call, at_least, request, _, is_sure = self.queue[0]
            if at_least > self.count and not self.stopped:
                return
            question = call.split(None, 1)[0] not in CALLS
            if is_sure and not question and not self.stopped:
                break
            answer = self.repository.ask(call) if question else what_if(self.repository, call)
            if not question and answer.startswith(b"ok"):
                if not self.stopped:
                    break
                answer = b"stopped\n"
            self.queue.popleft()
            self.answers.append((request, answer, self.index))
        room = MAX_BYTES - 100
        while self.queue and len(self.under_way) < MAX_CALLS and not self.stopped:
            first, length = self.queue[0], len(self.queue[0].text())
            if first.call.split(None, 1)[0] not in CALLS or first.at_least > self.count or (self.under_way and length > room):
                break
            self.under_way.append(self.queue.popleft())
            room -= length

    def found(self, index: int, text: bytes) -> None:
        """Takes what stands at an index of the log, in order."""
        if self.stopped or index < self.index:
            return
        assert index == self.index
        if index == 0:
            try:
                self.repository.begin_again(**limits_of(text))
            except ValueError:
                self._stop("no title of a log of camp")
            self.index = 1
            return
        head, _, body = text.partition(b"\n")
        words, calls = head.split(b" "), calls_of(body)
        if len(words) != 3 or words[0] != b"entry" or not words[2].isdigit() or not 1 <= len(calls) <= MAX_CALLS:
            self._stop("a foreign entry")
        if any(call.split(None, 1)[:1] not in [[word] for word in CALLS] for call, _ in calls):
            self._stop("a foreign entry")
        seat, number = words[1].decode("ascii", "replace"), int(words[2])
        last = self.numbers.get(seat, 0)
        if not 1 <= number <= last + 1:
            self._stop("a foreign entry")
        own = number == last + 1 and seat == self.seat
        if own and calls != [(it.call, it.note) for it in self.under_way]:
            self._stop("an entry of another process with this seat")
        if number == last + 1:
            self._decide(calls, self.under_way if own else None)
            self.numbers[seat] = number
            self.under_way = [] if own else self.under_way
        self.index += 1

    def _decide(self, calls: Sequence[Tuple[bytes, bytes]], asked: Optional[List[Request]]) -> None:
        """Executes the calls of an entry, all at once: each has one line for an answer."""
        answers = self.repository.ask(b"".join(call for call, _ in calls)).splitlines(keepends=True)
        if len(answers) != len(calls):
            self._stop("a foreign entry")
        for place, ((call, note), answer) in enumerate(zip(calls, answers)):
            self._keep(call, note, answer)
            if asked is not None:
                self.answers.append((asked[place].request, answer, (self.index, place)))

    def _keep(self, call: bytes, note: bytes, answer: bytes) -> None:
        """Counts an accepted call, and keeps its note."""
        if answer.startswith(b"ok"):
            self.count += 1
            if note and call.startswith(b"record"):
                self.notes[call.split(None, 3)[2].decode("ascii", "replace")] = note

    def execute(self, call: bytes, note: bytes = b"") -> bytes:
        """Executes a call that no log has, and returns its answer."""
        answer = self.repository.ask(call)
        self._keep(call, note, answer)
        return answer

    def _stop(self, why: str) -> None:
        self.stopped = Stopped(self.index, why)
        self.refused(b"stopped\n")
        raise self.stopped

    def refused(self, answer: bytes = NOT_TAKEN) -> None:
        """Takes that the log has nothing of what is under way, and never will."""
        self.answers.extend((it.request, answer, self.index) for it in self.under_way)
        self.under_way = []

    def ended(self, index: int) -> None:
        """Takes that the log ends at an index: what wants more is answered so."""
        if index == self.index and self.queue and not self.under_way and self.queue[0].at_least > self.count:
            self.answers.append((self.queue.popleft().request, NOT_READ, index))
