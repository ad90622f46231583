"""Hands a command to the command server of a working copy, if there is one: see `server`. It is imported first, so it imports little: no
`typing`, and the modules in C below `signal` and `socket`, which import many others."""

from __future__ import annotations

import _signal
import _socket
import marshal
import os
import sys

# Seconds that a server, which may be at another command, has to answer; what tells it that its caller still waits then; and the most bytes
# of an answer, which is one number.
PATIENCE, GO, ANSWER = 1.0, b"+", 32
# Commands that a server does not run: they are about another repository, or run until Ctrl-C.
OTHERS = ("init", "clone", "web")


def socket_path() -> str:
    """Returns the path of a server's socket, if the current folder is in a working copy; else an empty one."""
    folder = os.getcwd()
    while not os.path.isdir(os.path.join(folder, ".camp")):
        if folder == os.path.dirname(folder):
            return ""
        folder = os.path.dirname(folder)
    return os.path.join(folder, ".camp", "server")


def identity() -> list:
    """Identifies the program: processes with equal values run the same one. A file that is replaced changes the time of its folder."""
    own = os.path.dirname(os.path.abspath(__file__))
    return [sys.version, own, os.stat(own).st_mtime_ns, os.environ.get("CAMP_LIB_DIR", "")]


def ask_server(words: list[str]) -> int | None:
    """Has the server run a command and returns its exit status; None if no server runs it."""
    if os.environ.get("CAMPVC_SERVER") == "0" or words[:1] in [[it] for it in OTHERS]:
        return None
    connection = _socket.socket(_socket.AF_UNIX)
    try:
        connection.settimeout(PATIENCE)
        connection.connect(socket_path())
        os.umask(mask := os.umask(0))
        text = marshal.dumps([identity(), words, os.getcwd(), mask, dict(os.environ), sys.stdout.encoding, sys.stdout.errors])
        files = b"".join(file.to_bytes(4, sys.byteorder) for file in (0, 1, 2))
        connection.sendmsg([b"%9d" % len(text)], [(_socket.SOL_SOCKET, _socket.SCM_RIGHTS, files)])
        connection.sendall(text)
        process = int(connection.recv(ANSWER))
        connection.settimeout(None)
        connection.sendall(GO)
    except (OSError, ValueError, AttributeError):
        return None
    return follow(process, connection)


def follow(process: int, connection: _socket.socket) -> int:
    """Forwards signals to the process that runs the command, and returns its exit status."""
    sent: list[int] = []

    def hand_on(number: int, _: object) -> None:
        sent.append(number)
        try:
            os.kill(process, number)
        except OSError:
            pass

    for number in (_signal.SIGINT, _signal.SIGTERM, _signal.SIGHUP):
        _signal.signal(number, hand_on)
    try:
        status = connection.recv(ANSWER)
    except OSError:
        status = b""
    if not status:
        print("campvc: the command was ended: `campvc status` shows where you are", file=sys.stderr)
    return int(status or 128 + (sent or [_signal.SIGKILL])[-1])
