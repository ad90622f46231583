"""A process that stays: it has a shared repository loaded, and runs the commands of a program there, so that a command need not load it.

    start(path, loaded, SOCKET, Program(identity, run, runs_here, LOADED))

A caller sends over the socket a length in nine digits, with its three files, and then by `marshal`: its identity, the words of the command,
its folder, mask and environment, and the encoding of its output and what that does with the rest. It gets a line with the number of
the process that runs the command, answers GO if it still waits, and gets a line with the exit status.

The server first reads what is new in the log. A command that writes and asks nothing runs in the server, which has then what the command
did; any other one runs in a child of it, so several can run at once. It runs as in a process of its own, with the caller's folder,
environment, files and terminal. The server ends after ten minutes without a command, and when its socket, the program or the library is
another one. It needs Python 3.9 and Linux."""

from __future__ import annotations

import contextlib
import gc
import marshal
import os
import signal
import socket
import sys
import time
import traceback
from typing import Any, Callable, Dict, List, NamedTuple

from ._library import library_path
from .offline import Loaded

# What tells a server that its caller still waits, and the length before a request.
GO, LENGTH = b"+", 9
# Seconds without a command after which a server ends, between two checks that its socket is still there, and that a request may take.
IDLE, LOOK, PATIENCE = 600.0, 5.0, 10.0


class Program(NamedTuple):
    """What a server runs: a program with the identity that its callers send, the function that runs the words of a command and returns its
    exit status, that which says whether the command runs in the server, and where it takes the repository from and puts it back, by path."""
    identity: List[Any]
    run: Callable[[List[str]], int]
    runs_here: Callable[[List[str]], bool]
    loaded: Dict[str, Loaded]


def start(path: str, loaded: Loaded, name: str, program: Program) -> None:
    """Starts a server with what is loaded of the repository at a path; its socket has this name, beside that, and its user alone can open it."""
    sys.stdout.flush()
    if os.fork() == 0:
        try:
            gc.collect()
            # A child that collected the objects of the server would copy their pages.
            gc.freeze()
            os.setsid()
            Server(path, loaded, name, program).serve()
        finally:
            os._exit(0)


def library_time() -> int:
    """The time of the library's file, which differs once that is replaced."""
    path = library_path()
    return os.stat(path).st_mtime_ns if os.path.exists(path) else 0


class Server:
    """The process that keeps a repository loaded."""

    def __init__(self, path: str, loaded: Loaded, name: str, program: Program) -> None:
        self.path, self.loaded, self.name, self.program, self.library = path, loaded, name, program, library_time()
        os.closerange(3, 1024)
        self._rest()

    def _rest(self) -> None:
        """Lets go of all that a command has of its caller."""
        os.chdir(os.path.dirname(self.path))
        os.environ.clear()
        null = os.open(os.devnull, os.O_RDWR)
        for number in (0, 1, 2):
            os.dup2(null, number)
        os.close(null)
        os.umask(0o077)
        for number in (signal.SIGTERM, signal.SIGHUP):
            signal.signal(number, signal.SIG_DFL)
        signal.signal(signal.SIGINT, signal.SIG_IGN)
        signal.signal(signal.SIGCHLD, signal.SIG_IGN)

    def serve(self) -> None:
        """Runs commands until it is of no use, or none came for ten minutes."""
        with socket.socket(socket.AF_UNIX) as listener:
            with contextlib.suppress(OSError):
                os.remove(self.name)
            listener.bind(self.name)
            listener.listen(16)
            listener.settimeout(LOOK)
            own, end = os.stat(self.name).st_ino, time.monotonic() + IDLE
            while time.monotonic() < end and self._is_own(own):
                with contextlib.suppress(socket.timeout):
                    connection = listener.accept()[0]
                    end = time.monotonic() + IDLE
                    with connection:
                        if not self._answer(connection):
                            break
            if self._is_own(own):
                os.remove(self.name)

    def _is_own(self, own: int) -> bool:
        with contextlib.suppress(OSError):
            return os.stat(self.name).st_ino == own
        return False

    def _answer(self, connection: socket.socket) -> bool:
        """Has a command run, here or in a child. Whether this server is still of use."""
        connection.settimeout(PATIENCE)
        with contextlib.suppress(OSError, ValueError, EOFError):
            length, files, _, _ = socket.recv_fds(connection, LENGTH, 3)
            with connection.makefile("rb") as source:
                request = marshal.loads(source.read(int(length)))
            try:
                if request[0] != self.program.identity or not self._is_up_to_date():
                    return False
                if self.program.runs_here(request[1]):
                    return self._run_here(connection, files, request)
                if os.fork() == 0:
                    try:
                        self._run(connection, files, request)
                    finally:
                        os._exit(0)
            finally:
                for file in files:
                    os.close(file)
        return True

    def _run_here(self, connection: socket.socket, files: List[int], request: List[Any]) -> bool:
        """Runs a command in this process. Whether it gave the repository back."""
        try:
            self._run(connection, files, request)
        finally:
            self._rest()
        found = self.program.loaded.pop(self.path, None)
        self.loaded = found or self.loaded
        return found is not None

    def _is_up_to_date(self) -> bool:
        """Reads what other commands have read of the log. False where the log or the library is another one."""
        found = self.loaded.advance(self.path)
        self.loaded = found or self.loaded
        return found is not None and library_time() == self.library

    def _run(self, connection: socket.socket, files: List[int], request: List[Any]) -> None:
        """Runs a command with the files, the folder and the environment of the caller, and sends its exit status, if the caller still waits."""
        self.program.loaded[self.path], status = self.loaded, 1
        connection.sendall(b"%d\n" % os.getpid())
        if connection.recv(1) != GO:
            return
        try:
            for number, file in enumerate(files):
                os.dup2(file, number)
            _, words, folder, mask, variables, encoding, errors = request
            os.environ.clear()
            os.environ.update(variables)
            time.tzset()
            os.chdir(folder)
            os.umask(mask)
            sys.stdin, sys.stdout = open(0, encoding=encoding, closefd=False), open(1, "w", encoding=encoding, errors=errors, closefd=False)
            sys.stderr = open(2, "w", encoding=encoding, errors="backslashreplace", buffering=1, closefd=False)
            signal.signal(signal.SIGCHLD, signal.SIG_DFL)
            status = self.program.run(words)
            sys.stdout.flush()
        except SystemExit as error:
            status = error.code if isinstance(error.code, int) else 1
        except BaseException:
            traceback.print_exc()
        finally:
            with contextlib.suppress(OSError):
                connection.sendall(b"%d\n" % status)
