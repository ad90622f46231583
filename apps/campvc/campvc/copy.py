"""A working copy: a folder, and a branch of its own in a repository that is shared over a log.

A copy named `anna` that works on `main` has the branch `main--anna`, which nobody else writes. So a record is made on just the
tree that the copy has seen, whatever others do meanwhile. Then it is published: pulled into `main`. `sync` pulls from
`main` what others published. While the log can't be reached, calls are executed here and queued; they are sent when it is back."""

from __future__ import annotations

import contextlib
import os
import signal
from typing import Collection, Dict, Iterator, List, Sequence, Tuple

from camp import Conflict, NoBranch, Refused, sides, worktree
from camp.cached import CachedAnswers, Stamps, digest
from camp.changes import command
from camp.coding import File, Files, decode, places
from camp.errors import error_of
from camp.logs import Damaged, Foreign, Log, open_log, title_with
from camp.notes import Note, read_note
from camp.offline import Calls, Loaded, Offline
from camp.shared import NOT_TAKEN, Stopped

from . import Failure, show
from .state import State, locked

# The limits of a repository on a new log: changes in a branch, and branches, of which each copy has one.
CATCHES, BRANCHES = 1_000_000, 16_384
# Refusals of a queued call that mean that it was executed already: the branch or the patch is there, or is gone.
DONE_ALREADY = ("5", "6", "7", "8")
# The values of the setting `doing`: what a command is at, so that the next one can finish it.
UPDATE, RECORD, NOTHING = "update", "record", "nothing"
# Loaded repositories by their paths, for the next `Copy` of this process.
LOADED: Dict[str, Loaded] = {}
# Digests of files of the base that this process has read, which a server reads once.
DIGESTS: Dict[bytes, Tuple[File, bytes]] = {}
# True in a command server and in the processes that it makes.
IS_SERVED = False


def find_top() -> bytes:
    """Returns the folder of the working copy that the current folder is in."""
    folder = os.getcwdb()
    while not os.path.isdir(os.path.join(folder, b".camp")):
        if folder == os.path.dirname(folder):
            raise Failure("there is no campvc repository here or above: `campvc init` makes one, `campvc clone LOG` takes part in one", 128)
        folder = os.path.dirname(folder)
    return folder


@contextlib.contextmanager
def uninterrupted() -> Iterator[None]:
    """Delays Ctrl-C until the block ends, whichever thread gets it."""
    asked: List[int] = []
    before = signal.signal(signal.SIGINT, lambda number, _: asked.append(number))
    try:
        yield
    finally:
        signal.signal(signal.SIGINT, before)
    if asked:
        raise KeyboardInterrupt


class Copy(Offline):
    """A working copy: its folder, and its repository, which can be used without the log."""

    def __init__(self, top: bytes) -> None:
        self.top, self.state, self.warnings = top, State(top), []  # type: bytes, State, List[str]
        self.name, self.address = self.state.get("copy"), self.state.get("log")
        if not self.name:
            folder = worktree.text(os.path.join(top, b".camp"))
            raise Failure("{} is not complete: its making was interrupted; remove it, and try again".format(folder), 128)
        path = os.path.join(os.fsdecode(top), ".camp", "seen.db")
        super().__init__(path, LOADED.pop(path, None))
        self.repository = CachedAnswers(self, os.path.join(os.fsdecode(top), ".camp", "cache.db"), IS_SERVED)

    def __exit__(self, kind: type | None = None, *_: object) -> None:
        # What was interrupted may have been left half done; what was refused, or has no room, was not begun.
        loaded = self.detach() if kind is None or issubclass(kind, (Failure, Refused)) else None
        if loaded:
            LOADED[self.path] = loaded
        self.close()

    def close(self) -> None:
        super().close()
        self.repository.close()
        self.state.close()

    @property
    def branch(self) -> str:
        """The branch that this copy works on, with others."""
        return self.state.get("branch", "main")

    @property
    def own(self) -> str:
        """The branch that this copy alone writes."""
        return self.own_of(self.branch)

    def own_of(self, branch: str) -> str:
        return "{}--{}".format(branch, self.name)

    def branch_of(self, word: str) -> str:
        """Returns the branch that a word names, the own one if it is empty."""
        if word and word not in self.repository.branches():
            raise NoBranch(word)
        return word or self.own

    def place(self, path: str) -> bytes:
        """Returns a path of the command line as one from the top of the working copy."""
        place = os.path.relpath(os.path.abspath(os.fsencode(path)), self.top)
        if place == b".." or place.startswith(b"../"):
            raise Failure("{} is outside of the repository".format(path), 128)
        return place

    def synchronise(self) -> None:
        """Reads what is new in the log and sends it the queued calls; adds a warning for each that it refuses."""
        for call, answer in self.connect(lambda: connection(self.address, bool(self.state.get("doing")))):
            self.state.update(doing=UPDATE)
            if answer.split()[1].decode() not in DONE_ALREADY:
                first = call.split(b"\n")[0].decode()
                self.warnings.append("the log refuses what waited for it, `{}`: {}".format(first, error_in(answer)))

    def foresee(self, calls: Calls) -> None:
        """Executes calls here alone, so that questions show what they would do, and raises the first refusal. The log is asked them next."""
        for answer in self.shared.execute_ahead([call for call, _ in calls]):
            if not answer.startswith(b"ok"):
                raise error_in(answer)

    def ask_all(self, calls: Calls, names: Sequence[str] = ()) -> Tuple[int, Sequence[str]]:
        """Executes calls, which were foreseen if there are names; raises the first refusal. Patches of these names, which the calls bring to
        the own branch, are published in the same step if the shared branch lacks no others. Returns how many calls were accepted, and which
        patches are left to publish."""
        listed = self.repository.missing(self.own, self.branch) if names else []
        is_at_once = set(listed) <= set(names)
        answers = self.write([*calls, *pulling(self.own, self.branch, listed if is_at_once else ())])
        for answer in answers[:len(calls)]:
            if not answer.startswith(b"ok"):
                raise error_in(answer)
        self._warn_of(listed, answers[len(calls):])
        return sum(answer.startswith(b"ok") for answer in answers), () if is_at_once else names

    def along(self, origin: str, to: str, names: Sequence[str]) -> List[str]:
        """Returns the patches that a pull of these has to list. Only if others are missing too the library is asked."""
        missing = self.repository.missing(origin, to)
        return missing if set(missing) <= set(names) else self.repository.along(origin, to, names)

    def publish(self, names: Sequence[str]) -> None:
        """Pulls patches of the own branch into the shared one. If that is refused, they stay here and a warning says so."""
        listed = self.along(self.own, self.branch, names) if names else []
        if listed:
            self._warn_of(names, self.write(pulling(self.own, self.branch, listed)))

    def _warn_of(self, names: Sequence[str], answers: Sequence[bytes]) -> None:
        for answer in answers:
            if not answer.startswith(b"ok"):
                problem = "{} does not take {}: {}; it stays in this copy"
                self.warnings.append(problem.format(self.branch, ", ".join(names), error_in(answer)))

    def own_files(self, paths: Collection[bytes] | None = None, branch: str = "") -> Files:
        """Returns the files of the own branch, or of that for another branch; none if it is not made yet. With paths all others are those that
        the working tree was last brought to."""
        own = self.own_of(branch or self.branch)
        if paths is None:
            return decode(self.shared.tree(own)) if own in self.repository.branches() else {}
        return {**{path: file for path, file in self.state.base().items() if path not in paths}, **decode(self.own_tree(paths))}

    def own_tree(self, paths: Collection[bytes]) -> Dict[str, List[bytes]]:
        """Returns some files of the own branch, as a tree of camp."""
        found = {place: self.shared.file(self.own, place) for path in paths for place in places(path)}
        return {place: lines for place, lines in found.items() if lines is not None}

    def recover(self) -> None:
        """Finishes an interrupted command: makes the own branch, and brings the working tree to its files."""
        if self.own not in self.repository.branches():
            self.ask_all([(command("branch", self.own, self.branch), b"")])
        elif not self.state.get("doing"):
            raise Failure("there is a copy {} on this log already: name this one with --copy".format(self.name))
        elif self.state.get("doing") == NOTHING:
            return
        base, own = self.state.base(), self.own_files()
        with uninterrupted():
            with worktree.finished(self.top, base, own, self.state.get("doing") == RECORD) as moved:
                if base != own and self.state.get("doing"):
                    self.warnings.append("a command that was interrupted is finished now")
                for path, place in moved.items():
                    self.warnings.append("{} was changed meanwhile: what you had there is in {}".format(
                        worktree.text(path), worktree.text(place)))
                self.state.update(own, doing=NOTHING)

    def is_interrupted(self) -> bool:
        """True if an interrupted command left the working tree at older files than the own branch."""
        return self.state.get("doing") != NOTHING and self.state.base() != self.own_files()

    def scan(self) -> Files:
        """Reads the files of the working tree."""
        base, stamps = self.state.base(), Stamps(os.path.join(os.fsdecode(self.top), ".camp", "files.db"))
        for path, file in base.items():
            if DIGESTS.get(path, (None,))[0] is not file:
                DIGESTS[path] = file, digest(file.mode.encode(), file.content)
        digests = {path: DIGESTS[path][1] for path in base}
        unchanged = stamps.read(digests)
        before = dict(unchanged)
        found = worktree.scan(self.top, base, unchanged)
        if unchanged != before:
            stamps.write(digests, unchanged)
        return found

    def check_clean(self, what: str) -> None:
        """Raises a `Failure` that names the files with changes that are not recorded."""
        dirty = worktree.changed(self.state.base(), self.scan())
        if dirty:
            names = "".join("\n    {}".format(worktree.text(path)) for path in dirty[:10]) + "\n    .." * (len(dirty) > 10)
            raise Failure("{}: the working tree has changes that are not recorded; `campvc record` them, or take them back, "
                          "and try again:{}".format(what, names))

    def bring(self, calls: Calls, paths: Collection[bytes] | None = None, branch: str = "", names: Sequence[str] = ()) -> None:
        """Executes calls that were foreseen and change these files of the own branch, or any if None, and brings the working tree to them; with
        a branch, that is the one to work on from now on. A failure before the calls are accepted leaves the working tree as it was. Patches
        of `names`, which the calls bring, are published."""
        update = worktree.Update(self.top, self.state.base(), self.own_files(paths, branch))
        with uninterrupted():
            self.state.update(doing=UPDATE)
            before = self.shared.accepted
            accepted, left = self.ask_all(calls, names)
            if branch:
                self.state.update(branch=branch)
            if self.shared.accepted != before + accepted:
                # Calls of others came in between, so the files may be others.
                update = worktree.Update(self.top, self.state.base(), self.own_files())
            with update.installed():
                self.state.update(update.after, doing=NOTHING)
        self.publish(left)

    def record(self, calls: Calls, paths: Collection[bytes] | None = None, names: Sequence[str] = ()) -> None:
        """Executes calls as `bring` does, and leaves the working tree as it is."""
        self.foresee(calls)
        with uninterrupted():
            self.state.update(doing=RECORD)
            _, left = self.ask_all(calls, names)
            self.state.update(self.own_files(paths), doing=NOTHING)
        self.publish(left)

    def keep(self) -> None:
        """Keeps answers for the next command, unless a server has the repository loaded for it."""
        if not IS_SERVED:
            self.repository.keep(self.own, self.branch)

    def note(self, name: str) -> Note:
        return read_note(self.repository.notes.get(name, b""))

    def name_of(self, word: str, branch: str = "") -> str:
        """Returns the patch that a word names: by its name, or by the beginning of just one name."""
        names = self.repository.names(branch or self.own)
        found = [word] if word in names else [name for name in names if name.startswith(word)]
        if len(found) != 1:
            several = "several patches begin with {}: {}: write more of its name".format(word, ", ".join(found[:5]))
            where, more = ("in " + branch, " " + branch) if branch else ("here", "")
            none = "there is no patch {} {}: `campvc log{}` lists them".format(word, where, more)
            raise Failure(several if found else none)
        return found[0]

    def unresolved(self) -> Dict[bytes, List[Conflict]]:
        """Returns the unresolved conflicts of the own branch, by their files."""
        return sides.by_file(sides.unresolved(self.repository, self.own))


def pulling(origin: str, to: str, names: Sequence[str]) -> Calls:
    """Returns the call that pulls patches, none if there are none."""
    return [(command("pull", origin, to, *names), b"")] if names else []


def error_in(answer: bytes) -> Exception:
    """Returns the error that a response stands for."""
    if answer in (NOT_TAKEN, b"stopped\n"):
        return Failure("the log takes nothing more: its disk is full, or the patch is too large; nothing has changed", 128)
    return error_of(answer.decode("ascii", "replace").split())


def connection(address: str, is_known: bool) -> Log:
    """Opens the log at an address; raises `Away` if it can't be reached, or was there before and is gone."""
    try:
        return open_log(address, title_with(CATCHES, BRANCHES), is_known)
    except (ValueError, ImportError) as error:
        raise Failure(str(error), 128) from None


@contextlib.contextmanager
def named_troubles(address: str) -> Iterator[None]:
    """Turns what is wrong with a log into a `Failure` that says what to do."""
    try:
        yield
    except Foreign as error:
        raise Failure("the log {}: {}; correct the address, or ask who keeps it".format(address, error), 128) from None
    except (Damaged, Stopped) as error:
        advice = "ask who keeps it to put back what stood there"
        raise Failure("the log {} can't be read further: {}; {}".format(address, error, advice), 128) from None


@contextlib.contextmanager
def reading() -> Iterator[Copy]:
    """Opens the working copy with what was read of the log, for commands that change nothing: Ctrl-C ends them at once, also while the
    library is at a question."""
    signal.signal(signal.SIGINT, signal.SIG_DFL)
    with Copy(find_top()) as copy, named_troubles(copy.address):
        copy.open()
        if copy.own not in copy.repository.branches():
            raise Failure("this copy is not complete: `campvc sync` completes it", 128)
        yield copy
        copy.keep()


@contextlib.contextmanager
def writing(address: str = "") -> Iterator[Copy]:
    """Opens the working copy, locked, with all that the log has if it can be reached; with an address the log is there from now on.
    Prints the warnings at the end."""
    top = find_top()
    with locked(top), Copy(top) as copy:
        copy.address = address or copy.address
        with named_troubles(copy.address):
            copy.synchronise()
            if copy.address != copy.state.get("log"):
                copy.state.update(log=copy.address, doing=copy.state.get("doing") and UPDATE)
            copy.recover()
            yield copy
            copy.keep()
        show.print_warnings(copy)
