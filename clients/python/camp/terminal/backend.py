"""What answers the conversation: the program camp_shell, or anything else that has the same protocol."""

from __future__ import annotations

import contextlib
import os
import select
import shutil
import subprocess
import tempfile
from typing import NamedTuple, Optional, Protocol, Sequence

from . import interrupts
from .progress import PAUSE, Progress

NOT_FOUND = """camp_shell is not on your PATH. At the top of camp's repository run ./build, which makes the proved program in
out/bin, or ./play, which makes a slow one in out/unproved in two minutes; then put that folder on your PATH, or set CAMP_SHELL
to the program."""


# Seconds after the end of its input in which the program has to end.
PATIENCE = 3


class LogPlace(NamedTuple):
    """The address of a log that is shared, and the file that keeps what is read of it, if there is one."""
    address: str
    kept: Optional[str] = None


class Backend(Protocol):
    """A repository that answers requests."""

    # Where accepted calls are kept when the conversation ends; None if they are kept nowhere.
    kept_in: Optional[str]
    # Whether others may change the repository between two requests.
    is_shared: bool

    def ask(self, request: bytes) -> bytes:
        """The answers to a request, which is a small conversation of its own: whole commands, each line with its end.
        Raises `Ended` if there is no answer and will be none, and `NotDone` where there is none to this."""

    def close(self) -> None:
        """Ends it. What was accepted and is kept stays."""


class Ended(Exception):
    """The backend has ended or could not begin; the text says why."""

    # The exit status of a command that ends with it.
    status = 3


class NotLoaded(Ended):
    """A command of a file of `--load` is refused or has a fault."""

    status = 1


class NotDone(Exception):
    """The backend did not do what it was asked, and the conversation goes on; the text says why, and what to do."""


class Program:
    """The program camp_shell, spoken to in frames, so that each request has one answer."""

    is_shared = False

    def __init__(self, options: Sequence[str] = (), kept_in: Optional[str] = None) -> None:
        self.kept_in, self._progress = kept_in, Progress()
        # Why there are no more answers.
        self._failure = ""
        self._error = tempfile.TemporaryFile()
        words = [find_program(), "--frames", *options]
        try:
            # In a session of its own, so that Ctrl-C at the terminal does not end it.
            self._process = subprocess.Popen(words, stdin=subprocess.PIPE, stdout=subprocess.PIPE, stderr=self._error, start_new_session=True)
        except OSError as error:
            raise Ended("{} can't be run: {}".format(words[0], error.strerror)) from error
        try:
            with interrupts.raised():
                self._exchange(b"")
        except BaseException:
            self.close()
            raise
        # What the program says of a store that it has opened.
        self.notice = self._said()

    def ask(self, request: bytes) -> bytes:
        if self._failure:
            raise Ended(self._failure)
        self._failure = "an answer was not awaited, so that no other one is known"
        try:
            with interrupts.noted():
                answer = self._exchange(request)
        except Ended as error:
            self._failure = str(error)
            raise
        self._failure = ""
        return answer

    def _exchange(self, request: bytes) -> bytes:
        assert self._process.stdin and self._process.stdout
        try:
            self._process.stdin.write(b"%d\n%b" % (len(request), request))
            self._process.stdin.flush()
        except OSError:
            raise self._ended() from None
        self._wait()
        length = self._process.stdout.readline()
        answer = self._process.stdout.read(int(length)) if length.endswith(b"\n") else b""
        if not length.endswith(b"\n") or len(answer) < int(length):
            raise self._ended()
        return answer

    def close(self) -> None:
        for stream in (self._process.stdin, self._process.stdout):
            with contextlib.suppress(OSError):
                if stream:
                    stream.close()
        try:
            self._process.wait(timeout=PATIENCE)
        except subprocess.TimeoutExpired:
            # It is at work on what nobody waits for any more. What a store keeps survives that.
            self._process.kill()
            self._process.wait()
        self._error.close()

    def _wait(self) -> None:
        """Waits until there is an answer, or the end of the program's output."""
        self._progress.begin()
        try:
            while not select.select([self._process.stdout], [], [], PAUSE)[0]:
                self._progress.tick()
        finally:
            self._progress.end()

    def _ended(self) -> Ended:
        status = self._process.wait()
        how = "by signal {}".format(-status) if status < 0 else "with status {}".format(status)
        return Ended(self._said() or "camp_shell has ended {}".format(how))

    def _said(self) -> str:
        """What the program has written to standard error."""
        self._error.seek(0)
        return self._error.read().decode(errors="backslashreplace").strip().replace("camp_shell: ", "", 1)


def find_program() -> str:
    """The path of camp_shell: what CAMP_SHELL names, or the first on the PATH."""
    named = os.environ.get("CAMP_SHELL")
    found = shutil.which(named or "camp_shell")
    if found:
        return found
    raise Ended("CAMP_SHELL names {}, which can't be run.".format(named) if named else " ".join(NOT_FOUND.split()))


def open_store(path: str, options: Sequence[str] = ()) -> Program:
    """The repository that a store keeps; a new one if there is no such file."""
    return Program(["--store", path, *options], path)
