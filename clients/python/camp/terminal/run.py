"""Runs a conversation from its banner to its end."""

from __future__ import annotations

import os
import sys
from typing import Optional, Sequence

from ..errors import Unexpected
from . import interrupts
from .backend import Backend, Ended, LogPlace, NotDone, NotLoaded, Program, open_store
from .completion import Completion, all_words
from .files import BadFile, check_target, write_whole
from .keyboard import EndOfInput, Interrupted, Keyboard, Lines, Pipe
from .loading import explained
from .own import Conversation
from .screen import ALARM, complain, counted, standard_screen

FAILED, INTERRUPTED, UNREAD = 3, 130, 141


def open_backend(store: Optional[str], loads: Sequence[str], log: Optional[LogPlace]) -> Backend:
    """What answers: the repository of a log or of a store, or a new one."""
    if log is not None:
        from .shared_log import SharedLog
        return SharedLog(*log)
    options = ["--load", *loads] if loads else []
    try:
        return Program(options) if store is None else open_store(store, options)
    except Ended as error:
        text = explained(str(error))
        raise (Ended if text == str(error) else NotLoaded)(text) from error


def write_completions(path: str, store: Optional[str], loads: Sequence[str], log: Optional[LogPlace]) -> int:
    """Writes the words that rlwrap is to complete, one in a line, and returns the exit status."""
    try:
        check_target(path)
        backend = open_backend(store, loads, log)
        try:
            write_whole(path, "".join(it + "\n" for it in all_words(backend.ask)).encode())
        finally:
            backend.close()
    except (Ended, BadFile) as error:
        complain(str(error))
        return getattr(error, "status", FAILED)
    return 0


def run(store: Optional[str], loads: Sequence[str], log: Optional[LogPlace] = None) -> int:
    """Holds a conversation with a repository, which a store or a log keeps if one is named. Returns the exit status."""
    try:
        backend = open_backend(store, loads, log)
    except Ended as error:
        complain(str(error))
        return error.status
    except KeyboardInterrupt:
        return INTERRUPTED
    screen = standard_screen()
    is_terminal = sys.stdin.isatty() and screen.is_terminal
    session = Conversation(backend, screen, is_terminal, open_store)
    lines: Lines = Keyboard(Completion(session).complete) if is_terminal else Pipe()
    interrupts.install()
    try:
        if is_terminal:
            greet(session)
        while not session.is_over:
            step(session, lines)
    except BrokenPipeError:
        # Nothing is left to be written when Python ends.
        os.dup2(os.open(os.devnull, os.O_WRONLY), sys.stdout.fileno())
        session.status = UNREAD
    lines.close()
    session.backend.close()
    return session.status


def greet(session: Conversation) -> None:
    """The first lines: what this is, and where it is kept."""
    session.screen.say("camp: help lists the commands, quit ends.")
    if session.backend.kept_in:
        session.screen.say("Each accepted call is kept in {}.".format(session.backend.kept_in))
    else:
        session.screen.say("Nothing is kept: save FILE writes the history, open FILE opens a store.")
    notice = getattr(session.backend, "notice", "")
    if notice:
        session.screen.say(notice)


def step(session: Conversation, lines: Lines) -> None:
    """Reads a line and does what it says. What ends the backend ends the conversation."""
    try:
        text = lines.read(session.prompt())
        interrupts.take_noted()
        # A line feed can be typed inside a line.
        for line in text.split(b"\n"):
            session.take(line)
    except Interrupted as error:
        session.interrupt(error.had_text)
    except KeyboardInterrupt:
        interrupts.take_noted()
        session.is_over, session.status = True, INTERRUPTED
        say_ended(session, "ended by Ctrl-C")
    except EndOfInput:
        session.end_of_input()
    except Ended as error:
        session.is_over, session.status = True, FAILED
        say_ended(session, str(error))
    except NotDone as error:
        session.say_news()
        session.fail([str(error)])
    except Unexpected as error:
        session.fail(["camp_shell is of another version: it answered {}".format(error)])
    session.say_news()


def say_ended(session: Conversation, why: str) -> None:
    """Says that the backend has ended, what was not answered, and what is lost."""
    session.screen.say(why, ALARM)
    first = session.pending.split(b"\n")[0]
    if first:
        session.screen.say("Not answered: {}".format(first.decode("utf-8", "surrogateescape")))
    if session.backend.kept_in:
        session.screen.say("Every call that was answered ok is kept in {}.".format(session.backend.kept_in))
    elif session.unsaved:
        session.screen.say("Lost with it, since nothing was kept: {}.".format(counted(session.unsaved, "call")))
