"""`python3 -m camp shell --json` and `python3 -m camp json`: responses as JSON, one object in a line."""

from __future__ import annotations

import functools
import io
import json
import subprocess
import sys
from typing import Iterator, Optional, Sequence

from ..errors import Unexpected
from ..json_form import convert, convert_back, next_response, to_json
from .backend import Ended, LogPlace, NotDone, find_program
from .commands import next_command
from .run import FAILED, open_backend
from .screen import complain


def turn(is_back: bool) -> int:
    """Turns standard input into the other form, and returns the exit status."""
    try:
        (convert_back if is_back else convert)(sys.stdin.buffer, sys.stdout.buffer)
    except (Unexpected, ValueError) as error:
        return failed(error, 1)
    return 0


def run_json(store: Optional[str], loads: Sequence[str], log: Optional[LogPlace]) -> int:
    """Holds a conversation whose responses are objects, and returns the exit status."""
    try:
        if log is not None:
            return talk_over_log(log)
        words = [find_program(), *(["--store", store] if store else []), *(["--load", *loads] if loads else [])]
        with subprocess.Popen(words, stdout=subprocess.PIPE) as process:
            assert process.stdout
            convert(process.stdout, sys.stdout.buffer)
        return process.returncode
    except (Ended, Unexpected, OSError) as error:
        if isinstance(error, BrokenPipeError):
            raise
        return failed(error, FAILED)


def talk_over_log(log: LogPlace) -> int:
    """A conversation over a log, in which lines of faults count from the first line of each command. What could not be done is
    `{"answer": "not done", "why": ..}`, and the conversation goes on."""
    backend, cause = open_backend(None, (), log), b""
    try:
        while True:
            command = next_command(sys.stdin.buffer)
            if not command:
                return 0
            if command.split() == [b"why"] and cause:
                found = [to_json(cause)]
            else:
                try:
                    *answers, why = responses(backend.ask(command + b"why\n"))
                    cause = why if answers and answers[0].startswith((b"refused ", b"fault ")) else cause
                    found = [to_json(it) for it in answers]
                except NotDone as error:
                    found = [json.dumps({"answer": "not done", "why": str(error)})]
            sys.stdout.write("".join(it + "\n" for it in found))
            sys.stdout.flush()
    finally:
        backend.close()


def responses(text: bytes) -> Iterator[bytes]:
    """The responses of a text."""
    return iter(functools.partial(next_response, io.BytesIO(text).readline), b"")


def failed(error: BaseException, status: int) -> int:
    complain(str(error))
    return status
