"""One repository that many processes share over a log.

    from camp import Add
    from camp.logs import open_log
    from camp.shared import Shared

    with Shared(open_log("sqlite:notes.db")) as shared:
        shared.sync()                                  # reads what the log has
        shared.record("main", "start", [Add("notes")], note="a file for all of us")
        print(shared.tree("main"), shared.notes["start"])

Questions are answered at what was read. A call is answered once its entry stands in the log: every process decides it there,
so that all have one history.

An entry of the log is text: `entry SEAT NUMBER`, and then up to 256 calls, each as a command of the language; before a call
its note, if any, as comments: a line `#note TEXT` each. The library decides entries, and does no input or output."""

from __future__ import annotations

import collections
import os
import time
from typing import Any, Deque, Dict, List, Optional, Sequence, Tuple

from ._entries import CALLS, calls_of, canonical, noted, parted
from ._member import Code, LogMember
from .answers import AcceptedCall, Answer
from .changes import Change, Text, record_command, to_bytes
from .errors import Error, OutcomeUnknown, error_of
from .logs import AppendOutcome, Away, Damaged, Log, default_patience, limits_of
from .repository import Calls, Repository
from .snapshots import BadSnapshot, Snapshot, read_snapshot

NOT_READ = b"the log ends before what was seen\n"
NOT_TAKEN = b"the log refused the entry\n"
STOPPED = b"stopped\n"
# The most calls that a repository executes at a time to catch up.
AT_ONCE = 4096
# What is answered where there is no reply.
NO_REPLY = {Code.REFUSED: NOT_TAKEN, Code.ENDED: NOT_READ, Code.STOPPED: STOPPED}


class Stopped(Error):
    """The log can be read no further: what stands at this index is no entry of a member, or one of another process with
    this seat. Questions are still answered, at the calls before."""

    def __init__(self, index: int, why: str):
        self.index = index
        super().__init__("{} at entry {} of the log".format(why, index))


class LogRefused(Error):
    """The log took nothing of what was asked, and never will: it is full, or the entry is too large. Nothing has changed."""


def what_if(repository: Repository, call: bytes) -> bytes:
    """The answer that a call would have now."""
    lines = repository.ask(b"whatif " + call).split(b"\n", 2)
    return lines[1 if lines[0].startswith(b"whatif") else 0] + b"\n"


class Member:
    """A member of a log: the library decides each entry where it stands, each tag once, and says what it wants of the log. A
    repository beside it executes the accepted calls once it is used: for the history, notes, and calls that the log does not have yet.
    `answers` has (request, answer, place), in the order of requests; a place is an index of the log and which call of the entry, or for
    what was answered at what was read the index alone."""

    def __init__(self, seat: Optional[str] = None):
        self._repository, self.seat = Repository(), seat or os.urandom(16).hex()
        self.index, self.count, self.is_appending = 0, 0, False
        self.answers: Deque[Tuple[Any, bytes, Any]] = collections.deque()
        self.stopped: Optional[Stopped] = None
        # How many accepted calls the repository has executed, and their notes.
        self._executed = 0
        self._notes: Dict[str, bytes] = {}
        # Calls that the repository has and the log does not have yet, each with its answer.
        self._ahead: Deque[Tuple[bytes, bytes]] = collections.deque()
        self._title = b""
        # What decides, once the title is read; the requests that were asked before; and those without an answer, by their numbers.
        self._decides: Optional[LogMember] = None
        self._early: List[Tuple[int, bytes, int]] = []
        self._waiting: Dict[int, Any] = {}
        self._last = 0

    @property
    def is_settled(self) -> bool:
        """Whether each request has its answer, the log can be read on, and the repository has just what was read."""
        return not self._waiting and self.stopped is None and not self.is_ahead

    @property
    def is_ahead(self) -> bool:
        """Whether the repository has calls that the log does not have yet."""
        if self._ahead:
            self.catch_up()
        return bool(self._ahead)

    @property
    def repository(self) -> Repository:
        """The repository after what was read."""
        self.catch_up()
        return self._repository

    @property
    def notes(self) -> Dict[str, bytes]:
        """The notes, by the names of their patches."""
        self.catch_up()
        return self._notes

    def respond(self, question: bytes) -> bytes:
        """The response to a question, by the repository if it has executed all that was read, or else by the library."""
        if self._ahead or self._executed == self.count:
            return self.repository.ask(question)
        assert self._decides
        with self._decides.view() as view:
            return view.ask(question)

    def catch_up(self) -> None:
        """Executes in the repository what was accepted since it was last used, and keeps the notes."""
        with self._repository._lock:
            while self._executed < self.count:
                assert self._decides
                end = min(self.count, self._executed + AT_ONCE)
                found = [parted(self._decides.call(at)) for at in range(self._executed, end)]
                answers = self._execute([call for call, _ in found])
                assert len(answers) == len(found)
                for call, note in found:
                    self._keep(call, note)
                self._executed = end

    def ask(self, call: bytes, at_least: int = 0, request: Any = None, note: bytes = b"") -> None:
        """Asks a call, with its note, or one of the questions `tree`, `conflicts` and `names`; at a history of so many calls at least."""
        self._last += 1
        self._waiting[self._last] = request
        if self.stopped:
            return self._answer(self._last, self._answer_here(call), self.index)
        self._early.append((self._last, noted(call, note), at_least))
        self._ask_early()

    def _answer_here(self, call: bytes) -> bytes:
        """The answer at what is here, where the log is read no further: a call that would be accepted has none."""
        if call.split(None, 1)[0] not in CALLS:
            return self.repository.ask(call)
        answer = what_if(self.repository, call)
        return STOPPED if answer.startswith(b"ok") else answer

    def _ask_early(self) -> None:
        """Asks what was asked before the title was read. What is no call, or has no room in an entry, is answered at once."""
        while self._early and self._decides:
            number, text, at_least = self._early.pop(0)
            code = self._decides.ask(number, text, at_least)
            if code is Code.NO_CALL:
                self._answer(number, self._fault_of(text), self.index)
            elif code is Code.TOO_LONG:
                self._answer(number, NOT_TAKEN, self.index)

    def _fault_of(self, text: bytes) -> bytes:
        """Why a text is no call; a ValueError where it would be one in another form."""
        answer = what_if(self.repository, text)
        if answer.startswith(b"ok"):
            raise ValueError("not in canonical form: {!r}".format(text))
        return answer

    def _answer(self, number: int, answer: bytes, place: Any) -> None:
        self.answers.append((self._waiting.pop(number), answer, place))

    def want(self) -> Tuple:
        """What it wants of the log now: ("append", tag, text), ("read",) or ("nothing",)."""
        if self._decides is None:
            return ("read",) if self._waiting else ("nothing",)
        code, number, text = self._decides.want()
        self.is_appending = code is Code.APPEND
        self._take_answers()
        if code is Code.APPEND:
            return "append", "{}/{}".format(self.seat, number), text
        return ("read",) if code is Code.READ else ("nothing",)

    def _take_answers(self, index: Optional[int] = None) -> None:
        """Takes what was answered, at what was read or by the entry at an index."""
        assert self._decides
        for place, (number, answer) in enumerate(self._decides.answers()):
            self._answer(number, NO_REPLY.get(answer, answer), self.index if index is None else (index, place))

    def found(self, index: int, text: bytes) -> None:
        """Takes what stands at an index of the log, in order."""
        if self.stopped or index < self.index:
            return
        assert index == self.index
        if index == 0:
            self._open(text)
        else:
            assert self._decides
            if self._decides.found(index, text) is Code.FOREIGN:
                is_own = text.startswith(b"entry %s " % self.seat.encode())
                self._stop("an entry of another process with this seat" if is_own else "a foreign entry")
            self.count = self._decides.accepted
            self._take_answers(index)
        self.index += 1

    def _open(self, title: bytes) -> None:
        try:
            self._repository.begin_again(**limits_of(title))
            self._decides, self._title = LogMember(self.seat, title), title
        except ValueError:
            self._stop("no title of a log of camp")
        self._ask_early()

    def restore(self, snapshot: Snapshot) -> None:
        """Goes on from a snapshot of the log, before it has read anything of it."""
        assert self.index == 0
        self._open(snapshot.title)
        assert self._decides
        for index, text in snapshot.entries:
            if self._decides.restore(index, text) is not Code.DONE:
                raise BadSnapshot("the snapshot has an entry that can't follow, at {}".format(index))
        self.index, self.count = snapshot.index + 1, self._decides.accepted

    def _execute(self, calls: List[bytes]) -> List[bytes]:
        """Executes calls in the repository, without those that were executed ahead. If the first ones are not those, it is made anew before."""
        done = list(self._ahead)[:len(calls)]
        if [call for call, _ in done] != calls[:len(done)]:
            self._make_anew()
            done = []
        for _ in done:
            self._ahead.popleft()
        left = b"".join(calls[len(done):])
        return [answer for _, answer in done] + (self._repository.ask(left).splitlines(keepends=True) if left else [])

    def _make_anew(self) -> None:
        """Makes the repository anew, of the accepted calls that it has executed."""
        assert self._decides
        self._ahead.clear()
        self._repository.begin_again(**limits_of(self._title))
        for at in range(self._executed):
            self._repository.ask(self._decides.call(at))

    def execute_ahead(self, call: bytes) -> bytes:
        """Executes a call in the repository before the log is asked it, and returns its answer."""
        answer = self.repository.ask(call)
        if answer.startswith(b"ok"):
            self._ahead.append((call, answer))
        return answer

    def _keep(self, call: bytes, note: bytes) -> None:
        """Keeps the note of an accepted call."""
        if note and call.startswith(b"record"):
            self._notes[call.split(None, 3)[2].decode("ascii", "replace")] = note

    def execute(self, call: bytes, note: bytes = b"") -> bytes:
        """Executes a call that no log has, and returns its answer."""
        self.catch_up()
        answer = b"".join(self._execute([call]))
        if answer.startswith(b"ok"):
            self._keep(call, note)
            self.count += 1
            self._executed += 1
        return answer

    def _stop(self, why: str) -> None:
        self.stopped = Stopped(self.index, why)
        if self._decides:
            self.want()
        raise self.stopped

    def refused(self) -> None:
        """Takes that the log has nothing of what is under way, and never will."""
        if self._decides:
            self._decides.refused()
            self._take_answers()

    def ended(self, index: int) -> None:
        """Takes that the log ends at an index: what wants more is answered so."""
        if self._decides:
            self._decides.ended(index)
            self._take_answers()

    def take_seat(self) -> None:
        """Goes on under a new seat: a process that was forked may go on with the old one."""
        assert self.is_settled
        self.seat = os.urandom(16).hex()
        if self._decides:
            self._decides.take_seat(self.seat)

    def close(self) -> None:
        """Gives up what it holds."""
        if self._decides:
            self._decides.close()


def turn(member: Member, log: Log, wait: float = 0.2) -> bool:
    """One exchange of a member with its log. Whether there was anything to do."""
    want, length = member.want(), None
    if want[0] == "nothing":
        return False
    try:
        if want[0] == "append" and log.append(want[1], want[2]) is AppendOutcome.REFUSED:
            member.refused()
            return True
        if want[0] == "read" and (length := log.length()) < member.index:
            raise Damaged(length)
        for text in log.read(member.index, wait):
            member.found(member.index, text)
        if length is not None and length <= member.index:
            member.ended(member.index)
    except Away:
        time.sleep(0.05)
    return True


class Shared(Calls):
    """A repository that is shared over a log. Questions are answered at what was read: `sync` reads all that the log has. A
    method that writes returns once its entry was read back, and raises `OutcomeUnknown` where the log does not answer
    for `patience` seconds (those that CAMP_PATIENCE says, or 5): the call may have taken place, or may yet.

    It goes on from the file of a `snapshot`, if there is one. Notes are texts kept by the name of a patch."""

    def __init__(self, log: Log, seat: Optional[str] = None, patience: Optional[float] = None, snapshot: Optional[str] = None) -> None:
        super().__init__()
        self._log, self._member = log, Member(seat)
        self._handle, self._lock = self._member.repository._handle, self._member.repository._lock
        if snapshot is not None:
            found = read_snapshot(snapshot)
            found.check(log)
            self._member.restore(found)
        self._patience = default_patience() if patience is None else patience
        # How many calls were asked of the member: each has its number, since an answer may come after nobody waits for it.
        self._asked = 0

    @property
    def notes(self) -> Dict[str, bytes]:
        """The notes, by the names of their patches."""
        return self._member.notes

    @property
    def entries(self) -> int:
        """How many entries of the log were read."""
        return self._member.index

    @property
    def accepted(self) -> int:
        """How many calls were accepted in what was read."""
        return self._member.count

    @property
    def is_settled(self) -> bool:
        """Whether it has just what was read of the log, and nothing is under way."""
        return self._member.is_settled

    @property
    def is_ahead(self) -> bool:
        """Whether it shows calls that the log does not have yet."""
        return self._member.is_ahead

    def go_on_with(self, log: Log) -> None:
        """Takes another connection to the same log, and a new seat: a process that was forked may go on with the old one."""
        self._log = log
        self._member.take_seat()

    def sync(self) -> int:
        """Reads all that the log has now, and returns how many calls were accepted in that. `Away` is raised where no engine
        answers, `Stopped` and `Damaged` where the log can't be read."""
        length = self._log.length()
        if length < self._member.index:
            raise Damaged(length)
        end = time.monotonic() + self._patience
        while self._member.index < length:
            for text in self._log.read(self._member.index, 0.2):
                self._member.found(self._member.index, text)
                end = time.monotonic() + self._patience
            if time.monotonic() > end:
                raise Away("the log says that it has more, and does not send it")
        return self._member.count

    def ask(self, text: Text) -> bytes:
        """Runs the commands of a text: a call that would be accepted is written to the log, and all others are answered at what was
        read. Lines of faults count from the first of the commands that are answered together."""
        answers, here, whole = b"", b"", to_bytes(text)
        for call, _ in calls_of(whole if whole.endswith(b"\n") else whole + b"\n"):
            if call.split(None, 1)[:1] in [[word] for word in CALLS] and what_if(self._member.repository, call).startswith(b"ok"):
                answers += self._member.repository.ask(here) if here else b""
                answers, here = answers + self._answer(canonical(call)), b""
            else:
                here += call
        return answers + (self._member.repository.ask(here) if here else b"")

    def write_all(self, calls: Sequence[Tuple[bytes, bytes]]) -> List[bytes]:
        """Asks calls, each a command and its note, in as few entries as they fit in, and returns the answer of each; a refusal is
        an answer as any other, and those after it are asked all the same."""
        member, first = self._member, self._asked
        self._asked += len(calls)
        for at, (call, note) in enumerate(calls, first):
            member.ask(call, 0, at, note)
        answers: Dict[int, bytes] = {}
        end = time.monotonic() + self._patience
        while len(answers) < len(calls):
            turn(member, self._log)
            if member.answers:
                end = time.monotonic() + self._patience
            while member.answers:
                request, answer, _ = member.answers.popleft()
                if request >= first:
                    answers[request] = answer
            if time.monotonic() > end:
                raise OutcomeUnknown("the log does not answer")
        return [answers[at] for at in range(first, first + len(calls))]

    def settle(self) -> bool:
        """Asks again what is under way and nobody waits for, and returns whether nothing is left of it."""
        end = time.monotonic() + self._patience
        while self._member.is_appending and time.monotonic() < end:
            turn(self._member, self._log)
        return not self._member.is_appending

    def close(self) -> None:
        """Closes it. What is closed stays so."""
        self._member.close()
        super().close()

    def execute_here(self, calls: Sequence[Tuple[bytes, bytes]]) -> List[bytes]:
        """Executes calls here alone, as if the log had them next, and returns their answers. From then on this object shows what
        may come: it neither reads the log nor writes to it any more."""
        if not self._member.stopped:
            self._member.stopped = Stopped(self._member.index, "calls were executed here alone, before they were")
        return [self._member.execute(call, note) for call, note in calls]

    def execute_ahead(self, calls: Sequence[bytes]) -> List[bytes]:
        """Executes calls, in canonical form, before the log is asked them, and returns their answers up to the first that is not accepted:
        questions show what they would do. `write_all` of just these calls comes next; if the log has others before them, only what it
        has is shown then. What was executed is not taken back: without that this object can only be closed."""
        answers: List[bytes] = []
        for call in calls:
            answers.append(self._member.execute_ahead(call))
            if not answers[-1].startswith(b"ok"):
                break
        return answers

    def record(self, branch: str, name: str, changes: Sequence[Change], note: Text = b"") -> int:
        """Records a patch of 1 to 64 changes, with its note."""
        return self._write(record_command(branch, name, changes), to_bytes(note))

    def history(self) -> List[AcceptedCall]:
        """The accepted calls of what was read, in their order."""
        return self._member.repository.history()

    def _respond(self, text: bytes) -> bytes:
        return self._member.respond(text)

    def _cause(self, text: bytes) -> str:
        self._member.catch_up()
        return super()._cause(text)

    def _write(self, text: bytes, note: bytes = b"") -> int:
        words = Answer(self._answer(text, note)).next_words()
        if words[0] != "ok":
            raise error_of(words)
        return int(words[1])

    def _answer(self, call: bytes, note: bytes = b"") -> bytes:
        """The answer of a call where it stands in the log."""
        (answer,) = self.write_all([(call, note)])
        if answer == NOT_TAKEN:
            raise LogRefused("the log refuses the entry: its disk or its space is full, or the entry is too large")
        if answer == STOPPED and self._member.stopped:
            raise self._member.stopped
        return answer
