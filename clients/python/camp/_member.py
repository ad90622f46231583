"""The member of a log that the library exports: it decides the entries of a log, and says what it wants of it."""

from __future__ import annotations

import ctypes
import enum
import threading
from typing import Iterator, Tuple, Union

from ._library import LIBRARY, Handle
from .errors import OutOfMemory
from .questions import check
from .repository import View


class Code(enum.IntEnum):
    """The codes of members, as camp.h has them."""
    DONE = 0
    NO_TITLE = 16
    NO_CALL = 17
    TOO_LONG = 18
    FOREIGN = 19
    OUT_OF_ORDER = 20
    NOTHING = 21
    READ = 22
    APPEND = 23
    REPLY = 24
    REFUSED = 25
    ENDED = 26
    STOPPED = 27
    WAITS = 28


CODES = {int(it): it for it in Code}


def _halves(seat: str) -> Tuple[int, int]:
    return int(seat[:16], 16), int(seat[16:], 16)


def _code(found: int) -> Code:
    """A code of a member; a closed handle and out of memory are raised."""
    if 0 < found < Code.NO_TITLE:
        check(found, OutOfMemory("out of memory"))
    return CODES[found]


class LogMember:
    """A member of a seat of 32 hexadecimal digits, over a log with this title; a ValueError where it is none. Where memory runs
    out, nothing has changed. It serves one call at a time, and has a lock for that: threads may share it."""

    def __init__(self, seat: str, title: bytes) -> None:
        self._handle, self._lock, self._buffer = Handle(), threading.Lock(), ctypes.create_string_buffer(1024)
        if _code(LIBRARY.camp_member_open(self._handle, *_halves(seat), title, len(title))) is Code.NO_TITLE:
            raise ValueError("no title of a log of camp: {!r}".format(title))

    def __del__(self) -> None:
        self.close()

    def close(self) -> None:
        """Closes it. What is closed stays so."""
        with self._lock:
            LIBRARY.camp_member_close(self._handle)

    def take_seat(self, seat: str) -> bool:
        """Goes on under another seat, unless a request waits. Whether it does."""
        with self._lock:
            return _code(LIBRARY.camp_member_take_seat(self._handle, *_halves(seat))) is Code.DONE

    def ask(self, number: int, text: bytes, at_least: int) -> Code:
        """Asks the call of a text: DONE, or NO_CALL or TOO_LONG where it is not asked."""
        with self._lock:
            return _code(LIBRARY.camp_member_ask(self._handle, number, text, len(text), at_least))

    def want(self) -> Tuple[Code, int, bytes]:
        """What it wants of the log: NOTHING, READ with an index, or APPEND with a number and a text."""
        with self._lock:
            code = _code(LIBRARY.camp_member_want(self._handle))
            return code, LIBRARY.camp_member_number(self._handle), self._text()

    def found(self, index: int, text: bytes) -> Code:
        """Reads what stands at an index of the log: DONE, FOREIGN or OUT_OF_ORDER."""
        with self._lock:
            return _code(LIBRARY.camp_member_found(self._handle, index, text, len(text)))

    def restore(self, index: int, text: bytes) -> Code:
        """Restores what a snapshot of the log has at an index: DONE, FOREIGN or OUT_OF_ORDER."""
        with self._lock:
            return _code(LIBRARY.camp_member_restore(self._handle, index, text, len(text)))

    def refused(self) -> None:
        """Takes that the log took nothing of what was to be appended, and never will."""
        with self._lock:
            _code(LIBRARY.camp_member_refused(self._handle))

    def ended(self, index: int) -> None:
        """Takes that the log ends at an index."""
        with self._lock:
            _code(LIBRARY.camp_member_ended(self._handle, index))

    def answers(self) -> Iterator[Tuple[int, Union[bytes, Code]]]:
        """Takes the answers, in the order of the requests: the number of each, and its reply, or the code that says why there is none."""
        while True:
            with self._lock:
                code = _code(LIBRARY.camp_member_answer(self._handle))
                if code is Code.NOTHING:
                    return
                answer = LIBRARY.camp_member_number(self._handle), self._text() if code is Code.REPLY else code
            yield answer

    def call(self, at: int) -> bytes:
        """An accepted call of what was read, after its note."""
        with self._lock:
            code = _code(LIBRARY.camp_member_call(self._handle, at))
            assert code is Code.DONE
            return self._text()

    def view(self) -> View:
        """A view of the repository after what was read."""
        view = View()
        with self._lock:
            check(LIBRARY.camp_member_look(self._handle, view._handle), OutOfMemory("out of memory"))
        return view

    @property
    def accepted(self) -> int:
        """How many calls were accepted in what was read."""
        with self._lock:
            return LIBRARY.camp_member_accepted(self._handle)

    def _text(self) -> bytes:
        """The text that was given last. The buffer has room for one byte more, so that one that fills it is asked again."""
        while (length := LIBRARY.camp_member_text(self._handle, self._buffer, len(self._buffer))) == len(self._buffer):
            self._buffer = ctypes.create_string_buffer(1 + LIBRARY.camp_member_text_length(self._handle))
        return ctypes.string_at(self._buffer, length)
