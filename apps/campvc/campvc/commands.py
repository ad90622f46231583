"""The commands. Each is a few calls of camp; its exit status is as git's: 0 done, 1 nothing to do or refused, 128 not possible here."""

from __future__ import annotations

import argparse
import contextlib
import os
import shutil
from typing import Collection, List, Optional, Set

from camp import Change, Depends, NoMerge, sides
from camp.changes import command, record_command
from camp.coding import encode_path, file_changes, file_name
from camp.diffs import in_patches
from camp.notes import Note, patch_name, slug
from camp.worktree import changed, text

from . import Failure, show
from .conflicts import check_marks, marked_files, remember_marked
from .copy import Copy, pulling, reading, writing
from .patches import default_author, new_note, select
from .show import counted, emit
from .state import State

Words = argparse.Namespace
# Up to so many patches are asked one by one which files they change.
FEW = 50


def new_copy(folder: bytes, address: str, name: Optional[str], branch: str, must_exist: bool) -> None:
    """Makes a working copy in a folder, on a log."""
    top = os.path.abspath(folder)
    if os.path.lexists(os.path.join(top, b".camp")):
        raise Failure("{} is a campvc repository already: `campvc status` shows it".format(text(top)), 128)
    kind, _, path = address.partition(":")
    if must_exist and kind == "sqlite" and not os.path.exists(path):
        raise Failure("there is no log {}: `campvc init --log {}` makes one".format(path, address), 128)
    if must_exist and os.path.isdir(top) and os.listdir(top):
        raise Failure("{} is not empty: name a new folder, `campvc clone LOG FOLDER`".format(text(top)), 128)
    author = default_author()
    name = name or os.environ.get("CAMPVC_COPY") or "{}-{}".format(slug(author.split(" ")[0], 10), os.urandom(2).hex())
    if slug(name, 12) != name:
        raise Failure("{} is no name of a copy: take up to 12 of a to z, 0 to 9 and `-`".format(name), 128)
    is_new = not os.path.isdir(top)
    os.makedirs(os.path.join(top, b".camp"))
    try:
        State(top).update(log=address, branch=branch, author=author, copy=name)
        with contextlib.chdir(top), writing() as copy:
            if copy.away:
                raise Failure("the log {} does not answer: {}; start it, or correct the address".format(address, copy.away), 128)
            emit("copy {} of branch {}, on the log {}".format(copy.name, branch, copy.address))
    except BaseException:
        shutil.rmtree(top if is_new else os.path.join(top, b".camp"), ignore_errors=True)
        raise


def init(words: Words) -> int:
    top = os.path.abspath(os.fsencode(words.folder))
    own_log = "sqlite:{}".format(os.fsdecode(os.path.join(top, b".camp", b"log.db")))
    new_copy(top, absolute(words.log) or own_log, words.copy, "main", False)
    return 0


def clone(words: Words) -> int:
    address = words.log if ":" in words.log else clone_address(words.log)
    new_copy(os.fsencode(words.folder or "."), absolute(address), words.copy, words.branch, True)
    return 0


def clone_address(folder: str) -> str:
    """Returns the address of the log of the working copy in a folder."""
    if not os.path.isdir(os.path.join(folder, ".camp")):
        raise Failure("{} is no address of a log (sqlite:PATH, etcd:HOST:PORT/PREFIX, postgres:DSN) and no campvc repository".format(folder), 128)
    return State(os.fsencode(os.path.abspath(folder))).get("log")


def absolute(address: str) -> str:
    """Returns an address whose path, if it has one, is absolute."""
    kind, _, path = (address or "").partition(":")
    return "sqlite:" + os.path.abspath(path) if kind == "sqlite" and path else address


def status(words: Words) -> int:
    with reading() as copy:
        emit("on branch {} (copy {})".format(copy.branch, copy.name))
        here, there = copy.repository.missing(copy.own, copy.branch), copy.repository.missing(copy.branch, copy.own)
        if copy.waiting():
            emit("  {} wait for the log: `campvc sync` sends them".format(counted(len(copy.waiting()), "call")))
        if there:
            emit("  {} of {} not here: `campvc sync` takes over".format(counted(len(there), "patch"), copy.branch))
        if here:
            problem = "  {} here not in {}: taken out there, or not accepted; see `campvc sync`"
            emit(problem.format(counted(len(here), "patch"), copy.branch))
        base, files = copy.state.base(), copy.scan()
        if copy.is_interrupted():
            emit("  a command was interrupted: `campvc sync` finishes it")
        for path, pairs in copy.unresolved().items():
            emit("  conflict in {}: {}".format(text(path), "; ".join("{} and {}".format(*pair) for pair in pairs)), show.RED)
        for path in changed(base, files):
            kind = "new" if path not in base else "removed" if path not in files else "changed"
            emit("  {:8} {}".format(kind, text(path)), show.GREEN)
        if files == base:
            emit("  nothing to record")
    return 0


def chosen(copy: Copy, paths: List[str], found: List[bytes], known: Collection[bytes]) -> List[bytes]:
    """Selects the files at or below some paths, or all if there are none. A path that names no known file is a `Failure`."""
    if not paths:
        return found
    some: List[bytes] = []
    for path in paths:
        place = copy.place(path)
        below = [it for it in found if place == b"." or it == place or it.startswith(place + b"/")]
        if not below and not any(it == place or it.startswith(place + b"/") for it in known) and place != b".":
            raise Failure("{}: there is no such file here, and none was recorded".format(path))
        some += [it for it in below if it not in some]
    return sorted(some)


def diff_command(words: Words) -> int:
    with reading() as copy:
        base, files = copy.state.base(), copy.scan()
        show.print_diff(base, files, chosen(copy, words.paths, changed(base, files), {**files, **base}))
    return 0


def record(words: Words) -> int:
    with writing() as copy:
        base, files, marked = copy.state.base(), copy.scan(), marked_files(copy)
        found = {path: pairs for path, pairs in sides.unresolved(copy.repository, copy.own).items() if file_name(path) in marked}
        in_conflict = {file_name(path) for path in found}
        paths = chosen(copy, words.paths, sorted({*changed(base, files), *in_conflict}), {*files, *base, *in_conflict})
        for path in paths:
            if path in files and path in marked:
                check_marks(path, files[path].content)
        old = copy.own_tree(paths)
        changes = [file_changes(old, files, path) for path in paths]
        changes = select(changes) if words.interactive else changes
        decided, all_changes = [path for path in found if file_name(path) in paths], [it for some in changes for it in some]
        changes.append(sides.decisions(copy.repository, copy.own, decided, found, all_changes))
        if not any(changes):
            emit("nothing to record")
            return 1
        message = words.message if words.message is not None else show.ask("What is it for? ")
        before = set(sides.open_pairs(copy.repository, copy.own))
        record_changes(copy, in_patches(changes), new_note(message, copy.state.get("author")), paths)
        remember_marked(copy, [path for path in marked if path not in paths])
        for pair in sorted(before.difference(sides.open_pairs(copy.repository, copy.own) if before else [])):
            emit("resolves the conflict of {} and {}".format(*pair))
    return 0


def record_changes(copy: Copy, parts: List[List[Change]], note: Note, paths: List[bytes]) -> None:
    """Records patches of these files, and publishes them."""
    name = patch_name(note, [it for part in parts for it in part], copy.name)
    names = ["{}-{}".format(name, at + 1) for at in range(len(parts) - 1)] + [name]
    copy.record([(record_command(copy.own, one, part), note.text()) for one, part in zip(names, parts)], paths, names)
    emit("recorded {}{}".format(name, " in {} patches".format(len(names)) if len(names) > 1 else ""))
    if any(set(pair) & set(names) for pair in sides.open_pairs(copy.repository, copy.branch)):
        emit("in {} it is in conflict with what others recorded: `campvc sync` takes that over".format(copy.branch))


def log(words: Words) -> int:
    with reading() as copy:
        (show.print_graph if words.graph else show.print_log)(copy, copy.branch_of(words.branch))
    return 0


def show_command(words: Words) -> int:
    with reading() as copy:
        name = copy.name_of(words.patch)
        state = show.states_of(copy, copy.own).get(name, "")
        show.print_patch(copy, name, state)
        count = len(copy.repository.names(copy.own))
        if count <= show.MOST_WITH_GRAPH or words.needs:
            show.print_others("needs", copy.repository.needs(copy.own, [name]), name)
            show.print_others("holds", copy.repository.held(copy.own, [name]), name)
        else:
            emit("`campvc show --needs` looks up what it needs and holds: among {} patches that may take minutes".format(count))
        emit("\nits side, as changes of what is there now:" if state else "")
        show.print_changes(copy.repository.side(copy.own, name) if state else copy.repository.show(copy.own, name).changes)
    return 0


def annotate(words: Words) -> int:
    with reading() as copy:
        path = copy.place(words.path)
        lines = None if path == b"." else copy.repository.annotate(copy.own, encode_path(path))
        if lines is None:
            raise Failure("{}: there is no such file in {}".format(words.path, copy.branch))
        width = max([len(line.name) for line in lines] or [0])
        for line in lines:
            note = copy.note(line.name)
            head = "{:{}} {:10.10} {:10} ".format(line.name, width, note.who, note.date[:10])
            emit(head.encode("utf-8", "surrogateescape") + line.line)
    return 0


def branches(words: Words) -> int:
    with reading() as copy:
        for name in copy.repository.branches():
            if words.all or "--" not in name:
                count, pairs = len(copy.repository.names(name)), len(sides.open_pairs(copy.repository, name))
                more = ", " + counted(pairs, "unresolved conflict") if pairs else ""
                emit("{} {}  {}{}".format("*" if name == copy.branch else " ", name, counted(count, "patch"), more))
    return 0


def branch(words: Words) -> int:
    with writing() as copy:
        if slug(words.name, 38 - len(copy.name)) != words.name:
            raise Failure("{} is no name of a branch: take up to {} of a to z, 0 to 9 and `-`".format(words.name, 38 - len(copy.name)))
        copy.ask_all([(command("branch", words.name, copy.own), b"")])
        emit("branch {} is as {} is here; `campvc switch {}` works on it".format(words.name, copy.branch, words.name))
    return 0


def switch(words: Words) -> int:
    with writing() as copy:
        own = copy.own_of(copy.branch_of(words.name))
        copy.check_clean("switch")
        calls = [] if own in copy.repository.branches() else [(command("branch", own, words.name), b"")]
        copy.foresee(calls)
        copy.bring(calls, branch=words.name)
        lacks = copy.repository.missing(copy.branch, copy.own)
        more = "; {} of it not here: `campvc sync` takes over".format(counted(len(lacks), "patch")) if lacks else ""
        emit("on branch {}{}".format(copy.branch, more))
    return 0


def take(copy: Copy, branch: str, names: List[str], yes: bool, publish: bool = True) -> int:
    """Pulls patches, in the order of their branch, and all that they need into this copy; prints them, and the conflicts that this makes."""
    before, calls, listed = set(sides.open_pairs(copy.repository, copy.own)), pulling(branch, copy.own, names), names
    try:
        copy.foresee(calls)
    except (Depends, NoMerge):
        listed = copy.along(branch, copy.own, names)
    more = [name for name in listed if name not in names]
    emit("from {}:".format(branch))
    show.print_names(copy, listed)
    if more and not show.agreed("{} of these come along, since the others need them. Pull all?".format(len(more)), yes):
        raise Failure("nothing is pulled")
    if not copy.is_ahead:
        calls = pulling(branch, copy.own, listed)
        copy.foresee(calls)
    copy.bring(calls, changed_by(copy, listed), names=listed if publish else ())
    opened = [pair for pair in sides.open_pairs(copy.repository, copy.own) if pair not in before]
    new = [(path, pair) for path, pairs in (copy.unresolved() if opened else {}).items() for pair in pairs if pair in opened]
    for path, pair in new:
        emit("conflict in {}: {} and {}".format(text(path), *pair), show.RED)
    if new:
        emit("neither side of a conflict has an effect until it is decided: `campvc resolve` shows the sides in the files")
    return 1 if new else 0


def changed_by(copy: Copy, names: List[str]) -> Optional[Set[bytes]]:
    """Returns the files that patches changed which were pulled just now; None if these are so many that all files are read sooner."""
    if len(names) > FEW:
        return None
    return {file_name(change.path) for name in names for change in copy.repository.show(copy.own, name).changes}


def pull(words: Words) -> int:
    with writing() as copy:
        copy.check_clean("pull")
        missing = copy.repository.missing(copy.branch_of(words.branch), copy.own)
        wanted = [it if it in missing else copy.name_of(it, words.branch) for it in words.patches] or missing
        names = [name for name in missing if name in wanted]
        if not names:
            emit("nothing to pull: all of it is here")
            return 1
        return take(copy, words.branch, names, words.yes)


def sync(words: Words) -> int:
    with writing(absolute(words.log)) as copy:
        names, status = copy.repository.missing(copy.branch, copy.own), 0
        if names:
            copy.check_clean("{} of {} not taken over".format(counted(len(names), "patch"), copy.branch))
            status = take(copy, copy.branch, names, True, False)
        lacks = copy.repository.missing(copy.own, copy.branch)
        if lacks and words.publish:
            copy.publish(lacks)
        elif lacks:
            advice = "`campvc obliterate` takes it out here too, `campvc sync --publish` puts it there:"
            emit("{} lacks what is here; {}".format(copy.branch, advice))
            show.print_names(copy, lacks)
        emit("in step with {}".format(copy.branch) if not copy.away else "{} is as it was read last".format(copy.branch))
    return 1 if copy.away else status


def take_out(words: Words) -> int:
    """Removes patches and all that needs them from the branch; the files lose their changes, or keep them as unrecorded ones."""
    patches, keeps_files = words.patches, words.command == "unrecord"
    with writing() as copy:
        if not keeps_files:
            copy.check_clean("obliterate")
        names = [copy.name_of(it) for it in patches] or copy.repository.names(copy.own)[-1:]
        if not names:
            raise Failure("there is no patch to take out")
        held = copy.repository.held(copy.own, names)
        there = sorted(set(copy.repository.names(copy.branch)).intersection(held), key=held.index)
        others = [name for name in copy.repository.held(copy.branch, there) if name not in held]
        if others:
            problem = "in {} patches of others need this: {}; `campvc sync`, and name them too"
            raise Failure(problem.format(copy.branch, ", ".join(others)))
        emit("to be taken out:")
        show.print_names(copy, held)
        if (len(held) > len(names) or not patches) and not show.agreed("All of these go. Go on?", words.yes):
            raise Failure("nothing is taken out")
        calls = [(command("obliterate", branch, *some), b"") for branch, some in ((copy.own, held), (copy.branch, there)) if some]
        if keeps_files:
            copy.record(calls)
        else:
            copy.foresee(calls)
            copy.bring(calls)
    return 0


def web(words: Words) -> int:
    try:
        from .web import serve
    except ImportError as error:
        advice = "apt-get install python3-aiohttp python3-jinja2, and run campvc with /usr/bin/python3"
        raise Failure("the page needs {}: {}".format(error.name, advice), 128) from None
    return serve(words.port, words.host)
