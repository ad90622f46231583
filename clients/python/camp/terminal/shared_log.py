"""The repository that many processes share over a log, as what answers a conversation: `--log ADDRESS`."""

from __future__ import annotations

import re
import sqlite3
from typing import List, Optional, Set, Type

from ..errors import Error, OutcomeUnknown
from ..logs import Away, Damaged, Foreign, Log, RememberedLog, open_log
from ..shared import CALLS, LogRefused, Shared, Stopped
from .backend import Ended, NotDone

# The calls of others that are told one by one.
MOST_TOLD = 5
AWAY = "the log does not answer: this is what was read of it before"
NOT_SENT = "the log does not answer: nothing is done. Ask again when it is there; questions are answered at what was read."
UNKNOWN = ("the log does not answer: the call may be done, or may still come to be. Once it answers, history shows whether it is; ask no "
           "second time before.")


class SharedLog:
    """What the log has is read before each request, and a call is answered once it stands there."""

    is_shared = True

    def __init__(self, address: str, kept: Optional[str] = None) -> None:
        # A password is not shown.
        self.kept_in: Optional[str] = re.sub(r"(password=|://[^:/@]*:)[^\s@]+", r"\1..", address)
        self.notice = "Others may write to it: what they wrote is read before each command."
        self._news: List[str] = []
        self._trouble = ""
        try:
            engine = open_log(address)
            self._log: Log = RememberedLog(kept, engine) if kept else engine
            self._shared = Shared(self._log)
            self._shared.sync()
        except (ValueError, ImportError, Away, Foreign, Damaged, Error, sqlite3.Error, *_errors_of(address)) as error:
            raise Ended("the log {}: {}".format(self.kept_in, " ".join(str(error).split()))) from error
        self._told = self._shared.accepted

    def ask(self, request: bytes) -> bytes:
        self._catch_up()
        is_call = request.split()[:1] and request.split()[0] in CALLS
        if is_call and self._trouble and b"\nok " in self._shared.ask(b"whatif " + request):
            raise NotDone(NOT_SENT if self._trouble in (AWAY, UNKNOWN) else "nothing is done: {}".format(self._trouble))
        try:
            answer = self._shared.ask(request)
        except OutcomeUnknown:
            self._trouble = UNKNOWN
            raise NotDone(UNKNOWN) from None
        except (LogRefused, Stopped, Damaged) as error:
            raise NotDone("nothing is done: {}".format(error)) from None
        own = {int(it.split()[1]) for it in answer.split(b"\n") if re.match(rb"ok \d+\Z", it)}
        self._tell(own)
        return answer

    def news(self) -> List[str]:
        """What was learnt since this was asked last: calls of others, and troubles of the log."""
        found, self._news = self._news, []
        return found

    def close(self) -> None:
        self._shared.close()
        self._log.close()

    def _catch_up(self) -> None:
        """Reads what the log has now, if it answers."""
        trouble = ""
        try:
            # What was sent and not answered is settled first, so that it comes before what is asked now.
            if not self._shared.settle():
                raise Away
            self._shared.sync()
        except (Away, sqlite3.Error):
            trouble = AWAY
        except (Stopped, Damaged) as error:
            trouble = str(error)
        if trouble and trouble != self._trouble and self._trouble != UNKNOWN:
            self._news.append(trouble)
        elif self._trouble and not trouble:
            self._news.append("the log answers again")
        self._trouble = UNKNOWN if trouble == AWAY and self._trouble == UNKNOWN else trouble
        self._tell(set())

    def _tell(self, own: Set[int]) -> None:
        """Notes the calls of others that were read."""
        if self._shared.accepted == self._told:
            return
        others = [it for it in self._shared.history()[self._told:] if it.number not in own]
        self._told = self._shared.accepted
        self._news += ["read from the log: {} {}".format(it.number, it.command) for it in others[-MOST_TOLD:]]
        if len(others) > MOST_TOLD:
            self._news.append("and {} before: history lists all".format(len(others) - MOST_TOLD))


def _errors_of(address: str) -> List[Type[BaseException]]:
    """What a carrier of this kind raises where its engine can't be reached."""
    if not address.startswith("postgres:"):
        return [OSError]
    try:
        import psycopg2
    except ImportError:
        return []
    return [psycopg2.Error]
