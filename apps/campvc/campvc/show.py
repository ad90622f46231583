"""What commands print: patches, differences, graphs. At a terminal control characters are escaped, and some words are in colour."""

from __future__ import annotations

import os
import re
import sys
from typing import TYPE_CHECKING, Dict, Iterable, List

from camp import Change
from camp.coding import Files
from camp.described import Kind, change_lines, unified
from camp.lanes import joints, lanes
from camp.sides import open_pairs

if TYPE_CHECKING:
    from .copy import Copy

# Patches of a branch up to which it is looked up what each needs and holds: the time grows with the square of their number.
MOST_WITH_GRAPH = 250
RED, GREEN, YELLOW, CYAN, BOLD = "31", "32", "33", "36", "1"
COLOURS = {Kind.FILE: BOLD, Kind.PLACE: CYAN, Kind.OLD: RED, Kind.NEW: GREEN, Kind.OTHER: ""}


def emit(line: bytes | str = b"", colour: str = "") -> None:
    """Prints a line. Bytes are written as they are, but escaped at a terminal."""
    found = line.encode("utf-8", "surrogateescape") if isinstance(line, str) else line
    if sys.stdout.isatty():
        found = re.sub(rb"[\x00-\x08\x0b-\x1f\x7f]", lambda it: b"\\x%02x" % ord(it[0]), found)
        found = b"\x1b[%sm%s\x1b[0m" % (colour.encode(), found) if colour else found
    sys.stdout.buffer.write(found + b"\n")


def warn(message: str) -> None:
    try:
        sys.stdout.flush()
    except OSError:
        drop_output()
    print("campvc: " + message, file=sys.stderr)


def drop_output() -> None:
    """Drops the output that is left, also at the end of the process: nobody takes it."""
    os.dup2(os.open(os.devnull, os.O_WRONLY), 1)


def ask(question: str) -> str:
    """Asks a question, and returns the answer; an empty one at the end of the input."""
    sys.stdout.buffer.write(question.encode())
    sys.stdout.flush()
    line = sys.stdin.readline()
    if not sys.stdin.isatty():
        emit(line.rstrip("\n"))
    return line.strip()


def counted(count: int, what: str) -> str:
    """Renders a number of things: `1 patch`, `2 patches`."""
    return "{} {}{}".format(count, what, "" if count == 1 else "es" if what.endswith("ch") else "s")


def print_patch(copy: Copy, name: str, state: str = "") -> None:
    """Prints a patch with its note."""
    note = copy.note(name)
    emit("patch {}".format(name), YELLOW)
    for field, value in (("author", note.author), ("date", note.date), ("state", state)):
        if value:
            emit("{:7} {}".format(field, value))
    for line in ["", *("    " + it for it in note.message.split("\n")), ""] if note.message else [""]:
        emit(line.rstrip())


def states_of(copy: Copy, branch: str) -> Dict[str, str]:
    """Returns for each patch in conflict with which others it is."""
    is_open, found = set(open_pairs(copy.repository, branch)), {}  # type: set, Dict[str, List[str]]
    for pair in copy.repository.conflicts(branch):
        for name, other in ((pair.left, pair.right), (pair.right, pair.left)):
            found.setdefault(name, []).append(other + ("" if pair in is_open else " (resolved)"))
    return {name: "in conflict with " + ", ".join(others) for name, others in found.items()}


def needs_of(copy: Copy, branch: str) -> Dict[str, List[str]]:
    """Returns the patches of a branch, each with those that it needs directly."""
    from camp.pictures import listed, read_needs
    return read_needs(listed(copy.repository.ask, "graph", branch))


def print_log(copy: Copy, branch: str) -> None:
    """Prints the patches of a branch, the last one first."""
    states = states_of(copy, branch)
    for name in reversed(copy.repository.names(branch)):
        print_patch(copy, name, states.get(name, ""))


def print_graph(copy: Copy, branch: str) -> None:
    """Prints the patches of a branch, the last one first, with lanes to what they need."""
    count = len(copy.repository.names(branch))
    if count > MOST_WITH_GRAPH:
        warn("what {} patches need is looked up, which may take minutes; Ctrl-C ends it".format(count))
    states, needs = states_of(copy, branch), needs_of(copy, branch)
    for row in lanes(needs):
        marks = " ".join("*" if lane == row.lane else "|" for lane in range(len(row.before)))
        state = "  [{}]".format(states[row.name]) if row.name in states else ""
        emit("{} {}{}".format(marks, note_line(copy, row.name), state))
        between = joints(row, needs[row.name])
        if set(between) - {"|", " "}:
            emit(between)


def print_changes(changes: Iterable[Change]) -> None:
    for line, kind in change_lines(list(changes)):
        emit(line, COLOURS[kind])


def print_diff(before: Files, after: Files, paths: List[bytes]) -> None:
    """Prints how files differ, in the form that `patch` reads."""
    for line, kind in unified(before, after, paths):
        emit(line, COLOURS[kind])


def note_line(copy: Copy, name: str) -> str:
    """Renders a patch with its title and author."""
    note = copy.note(name)
    return "{}  {}{}".format(name, note.title, note.who and " ({})".format(note.who))


def print_warnings(copy: Copy) -> None:
    """Prints the warnings, and that the log can't be reached."""
    for line in copy.warnings:
        warn(line)
    if copy.away:
        warn("the log is away ({}): what you do here waits, and `campvc sync` sends it".format(copy.away))


def print_names(copy: Copy, names: Iterable[str]) -> None:
    """Prints patches with their titles."""
    for name in names:
        emit("    " + note_line(copy, name))


def print_others(title: str, names: Iterable[str], name: str) -> None:
    """Prints the names of patches beside one of them."""
    emit("{:7} {}".format(title, ", ".join(it for it in names if it != name) or "no other patch"))


def agreed(question: str, yes: bool) -> bool:
    """True if the user agrees, or has done so with `--yes`."""
    return yes or ask(question + " [y, n] ").lower() in ("y", "yes")
