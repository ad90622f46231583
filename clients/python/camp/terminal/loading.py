"""What is wrong in a file of `--load`, in words."""

from __future__ import annotations

import re

from .backend import Program
from .causes import Cause, split_cause
from .commands import next_command
from .unresolved import listed

# What camp_shell says: the file, the line where the command begins, and the answer.
FAULTY = re.compile(r"(.*): line (\d+): ((?:fault|refused) \d+ .*|refused \d+)\Z", re.S)


def explained(text: str) -> str:
    """Why camp_shell has ended, where it says that a command of a file has a fault or is refused; else the text as it is."""
    found = FAULTY.match(text)
    if not found:
        return text
    path, line, answer = found[1], int(found[2]), found[3]
    cause = refusal(answer) if answer.startswith("refused ") else fault(path, line, answer)
    return "{}, line {}: {}".format(path, line, "\n".join(cause.in_words()))


def refusal(answer: str) -> Cause:
    """The cause of a refusal, as `help` has it."""
    program = Program()
    try:
        meaning = listed(program.ask, "help", *answer.split(" ")[:2]) or [answer.encode()]
    finally:
        program.close()
    return Cause(answer, [it.decode("utf-8", "replace") for it in meaning])


def fault(path: str, line: int, answer: str) -> Cause:
    """The cause of the fault of the command that begins in a line of a file."""
    program = Program()
    try:
        with open(path, "rb") as file:
            for _ in range(line - 1):
                file.readline()
            command = next_command(file)
        _, why = split_cause(program.ask(command + b"why\n"))
    except OSError:
        why = []
    finally:
        program.close()
    return Cause(answer, why or [answer])
