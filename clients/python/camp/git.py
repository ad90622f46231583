"""In from git, and out again.

Out: a branch as a stream for `git fast-import`, a commit for each patch, with its note, modes and all. In: the first parents of a
commit, a patch for each, named by the commit's id; a merge is one patch with all that it brought."""

from __future__ import annotations

import os
import subprocess
from datetime import datetime
from typing import BinaryIO, Collection, Dict, Iterator, List, Mapping, Tuple

from .answers import Tree
from .changes import Add, Change, Remove, apply, record_command
from .coding import SUBMODULE, File, Files, decode, encode, file_changes
from .diffs import in_patches
from .errors import Error
from .notes import Note, read_note
from .questions import Questions
from .worktree import changed, check_names


class GitFailed(Error):
    """Git is not there, or refuses what it was asked, in its words."""


def history(of: Questions, branch: str) -> Iterator[Tuple[str, Files]]:
    """The patches of a branch, each with the files after it."""
    tree: Tree = {}
    for name in of.names(branch):
        for change in of.show(branch, name).changes:
            lines = apply(tree.pop(change.path, None), change)
            tree.update({} if lines is None else {change.path: lines})
        yield name, decode(tree)


def write_stream(of: Questions, branch: str, notes: Mapping[str, bytes], ref: str, out: BinaryIO) -> None:
    """Writes a branch as a stream that `git fast-import` reads into the branch `ref`."""
    before: Files = {}
    for number, (name, files) in enumerate(history(of, branch), 1):
        paths = changed(before, files)
        check_names(files, paths)
        note = read_note(notes.get(name, b""))
        out.write(b"commit refs/heads/%s\nmark :%d\n" % (ref.encode(), number))
        out.write(b"author %s\ncommitter %s\n" % ((_person(note),) * 2))
        out.write(_data((note.message or name).encode("utf-8", "surrogateescape") + b"\n"))
        out.write(b"from :%d\n" % (number - 1) if number > 1 else b"")
        for path in paths:
            out.write(_modify(path, files[path]) if path in files else b"D %s\n" % _quoted(path))
        out.write(b"\n")
        before = files


def _person(note: Note) -> bytes:
    """Who, and when, as git writes it; a patch without a note is of camp, at the beginning of 1970."""
    name, _, address = note.author.rpartition(" <")
    when = datetime.fromisoformat(note.date) if note.date else datetime.fromisoformat("1970-01-01T00:00:00+00:00")
    clean = [part.translate(dict.fromkeys(b"<>\n\0")).strip() for part in (name or "camp", address or "camp")]
    return "{} <{}> {} {}".format(*clean, int(when.timestamp()), when.strftime("%z") or "+0000").encode("utf-8", "surrogateescape")


def _data(content: bytes) -> bytes:
    return b"data %d\n%s\n" % (len(content), content)


def _quoted(path: bytes) -> bytes:
    return b'"%s"' % b"".join(b"\\%03o" % byte if not 0x20 <= byte <= 0x7E or byte in b'"\\' else bytes([byte]) for byte in path)


def _modify(path: bytes, file: File) -> bytes:
    if file.mode == SUBMODULE:
        return b"M %s %s %s\n" % (SUBMODULE.encode(), file.content.strip(), _quoted(path))
    return b"M %s inline %s\n%s" % (file.mode.encode(), _quoted(path), _data(file.content))


def git(repository: str, *words: str, given: bytes = b"") -> bytes:
    """What git writes."""
    try:
        done = subprocess.run(["git", "-C", repository, *words], input=given, stdout=subprocess.PIPE, stderr=subprocess.PIPE, check=False)
    except FileNotFoundError:
        raise GitFailed("git is not installed: apt-get install git") from None
    if done.returncode:
        raise GitFailed("git {}: {}".format(words[0], done.stderr.decode("utf-8", "replace").strip()))
    return done.stdout


class Commits:
    """The first parents of a commit of a repository, the earliest first."""

    def __init__(self, repository: str, end: str) -> None:
        self.repository = os.path.abspath(repository)
        form = "--format=%H%x00%an <%ae>%x00%aI%x00%B%x01"
        listed = git(repository, "log", "--first-parent", "--reverse", form, end, "--").decode("utf-8", "surrogateescape")
        self.notes: Dict[str, Note] = {}
        for one in listed.split("\x01")[:-1]:
            commit, author, date, message = one.lstrip("\n").split("\0")
            self.notes[commit] = Note(author, date, message.rstrip("\n"))

    def __iter__(self) -> Iterator[Tuple[str, Files, Files]]:
        """Each commit, the files before it and after it."""
        blobs = subprocess.Popen(["git", "-C", self.repository, "cat-file", "--batch"], stdin=subprocess.PIPE, stdout=subprocess.PIPE)
        assert blobs.stdin and blobs.stdout
        files: Files = {}
        parent = git(self.repository, "hash-object", "-t", "tree", "/dev/null").decode().strip()
        with blobs:
            for commit in self.notes:
                after = dict(files)
                words = git(self.repository, "diff-tree", "-r", "-z", "--no-renames", parent, commit).split(b"\0")
                for said, path in zip(words[0::2], words[1::2]):
                    _, mode, _, blob, status = said.split(b" ")
                    if status == b"D":
                        del after[path]
                        continue
                    content = blob if mode.decode() == SUBMODULE else _blob(blobs.stdin, blobs.stdout, blob)
                    after[path] = File(mode.decode(), content)
                yield commit, files, after
                files, parent = after, commit
            blobs.stdin.close()


def _blob(asked: BinaryIO, answered: BinaryIO, blob: bytes) -> bytes:
    asked.write(blob + b"\n")
    asked.flush()
    length = int(answered.readline().split()[2])
    return answered.read(length + 1)[:-1]


def records(commits: Commits, branch: str, there: Collection[str]) -> Iterator[List[Tuple[bytes, bytes]]]:
    """The records of each commit that is not there yet, with their notes. One that changes nothing adds and removes a file `%e/ID`, so
    that it has a name."""
    for commit, before, after in commits:
        if commit in there:
            continue
        paths = changed(before, after)
        old = encode({path: before[path] for path in paths if path in before})
        nothing: List[Change] = [Add("%e/" + commit), Remove("%e/" + commit)]
        parts = in_patches(file_changes(old, after, path) for path in paths) or [nothing]
        names = ["{}-{:04}".format(commit[:35], at) for at in range(len(parts) - 1)] + [commit]
        note = commits.notes[commit].text()
        yield [(record_command(branch, name, part), note) for name, part in zip(names, parts)]
