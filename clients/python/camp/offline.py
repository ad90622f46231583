"""A shared repository that goes on where its log is away: calls are executed here, wait in a SQLite file, and are sent when the log
is back.

    with Offline("seen.db") as repository:
        refused = repository.connect(lambda: open_log("etcd:127.0.0.1:2379/notes"))
        repository.write([(command("branch", "draft", "main"), b"")])
        print(repository.away or "the log has it")
"""

from __future__ import annotations

import contextlib
from typing import Callable, List, NamedTuple, Optional, Sequence, Tuple

from .errors import OutcomeUnknown
from .logs import Away, Log, RememberedLog, own_file
from .shared import Shared, Stopped

# Calls, each a command and its note.
Calls = List[Tuple[bytes, bytes]]


class Loaded(NamedTuple):
    """A repository that has what a log has up to an entry, and that entry."""
    shared: Shared
    last: bytes

    def advance(self, path: str) -> Optional[Loaded]:
        """The repository with what was read since, as it is remembered at a path; None where that is another log."""
        with contextlib.closing(RememberedLog(path)) as log:
            if log.entry(self.shared.entries - 1) != self.last:
                return None
            self.shared.go_on_with(log)
            self.shared.sync()
            return Loaded(self.shared, log.entry(self.shared.entries - 1))


class Offline:
    """`shared` answers questions: at what was read of the log, and what waits. It is loaded when it is first used, or goes on from what was
    loaded before, of the same path. `away` says why the log can't be asked, if so."""

    def __init__(self, path: str, loaded: Optional[Loaded] = None) -> None:
        self.path, self.away = path, "not asked"
        self.log: Optional[RememberedLog] = None
        self._shared: Optional[Shared] = None
        self._known, self._loaded, self._openings = 0, loaded, 0
        # The calls that wait: they are executed behind those of the log.
        self._behind: Calls = []
        self._base = own_file(path)
        self._base.execute("CREATE TABLE IF NOT EXISTS waiting (at INTEGER PRIMARY KEY, call BLOB NOT NULL, note BLOB NOT NULL)")

    def __enter__(self) -> Offline:
        return self

    def __exit__(self, *_: object) -> None:
        self.close()

    def open(self, engine: Optional[Log] = None) -> None:
        """Reads from an engine what is new. Without one there is what is known, and what waits."""
        loaded, self._loaded = self._loaded or self.detach(), None
        self._close()
        self._openings += 1
        self.log = RememberedLog(self.path, engine)
        self._known = self.log.fetch()
        self._behind = [] if engine else self.waiting()
        if loaded and self.log.entry(loaded.shared.entries - 1) == loaded.last:
            loaded.shared.go_on_with(self.log)
            self._load(loaded.shared)
        elif loaded:
            loaded.shared.close()

    @property
    def shared(self) -> Shared:
        """The repository. The first use loads it."""
        if self._shared is None:
            assert self.log
            self._load(Shared(self.log))
        assert self._shared
        return self._shared

    def _load(self, shared: Shared) -> None:
        try:
            shared.sync()
        except Stopped as error:
            # It is read anew, in case somebody puts it right.
            assert self.log
            self.log.forget(error.index)
            raise
        if self._behind:
            shared.execute_here(self._behind)
        self._shared = shared

    @property
    def is_loaded(self) -> bool:
        """Whether the repository is loaded."""
        return self._shared is not None

    @property
    def is_ahead(self) -> bool:
        """Whether the repository has calls that were not asked of the log yet."""
        return self._shared is not None and self._shared.is_ahead

    def detach(self) -> Optional[Loaded]:
        """Gives the loaded repository away, for another object with this path; None where it has more than the log, or may have."""
        if self._shared is None or self.log is None or not self._shared.is_settled:
            return None
        shared, self._shared = self._shared, None
        return Loaded(shared, self.log.entry(shared.entries - 1))

    def at(self) -> Tuple[int, int, int]:
        """What changes whenever `position` may: how often it was opened, how many entries it has, and how many calls are behind."""
        return self._openings, self._shared.entries if self._shared else self._known, len(self._behind)

    def position(self) -> Tuple[int, bytes, Calls]:
        """Where the repository is, or will be once it is loaded: how many entries of the log it has, the last of them, and the calls behind."""
        assert self.log
        entries = self._shared.entries if self._shared else self._known
        return entries, self.log.entry(entries - 1), self._behind

    def connect(self, open_engine: Callable[[], Log]) -> List[Tuple[bytes, bytes]]:
        """Asks the log for what is new, and for all that waits, unless it is away. Returns the calls that it refuses, each with the answer;
        they wait no more."""
        try:
            self.open(open_engine())
            self.away = ""
            waiting = self.waiting()
            answers = self.shared.write_all(waiting) if waiting else []
        except (Away, OutcomeUnknown) as error:
            self._leave(str(error))
            return []
        if waiting:
            self._base.execute("DELETE FROM waiting")
        return [(call, answer) for (call, _), answer in zip(waiting, answers) if not answer.startswith(b"ok")]

    def write(self, calls: Calls) -> List[bytes]:
        """Asks calls, and returns their answers. Where the log is away they are executed here, and wait for it."""
        if not self.away:
            try:
                return self.shared.write_all(calls)
            except OutcomeUnknown as error:
                self._leave(str(error))
        answers = self.shared.execute_here(calls)
        accepted = [call for call, answer in zip(calls, answers) if answer.startswith(b"ok")]
        self._base.execute("BEGIN IMMEDIATE")
        self._base.executemany("INSERT INTO waiting (call, note) VALUES (?, ?)", accepted)
        self._base.execute("COMMIT")
        self._behind += accepted
        return answers

    def waiting(self) -> Calls:
        """The calls that wait for the log."""
        return list(self._base.execute("SELECT call, note FROM waiting ORDER BY at"))

    def version(self) -> Tuple[int, Sequence]:
        """A value that changes when another process changes what is known here."""
        return (self.log.known() if self.log else 0), self.waiting()

    def _leave(self, why: str) -> None:
        self.away = why
        self._close()
        self.open()

    def _close(self) -> None:
        for one in (self._shared, self.log):
            if one is not None:
                one.close()
        self._shared, self.log = None, None

    def close(self) -> None:
        """Gives up what it holds."""
        self._close()
        self._base.close()
