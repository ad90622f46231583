"""The results of questions, and how they are read from the library's answers."""

from __future__ import annotations

from typing import Dict, Iterable, Iterator, List, NamedTuple, Union

from .changes import Add, Change, Edit, Remove
from .errors import Unexpected

# The files of a branch, each with its lines.
Tree = Dict[str, List[bytes]]


class Conflict(NamedTuple):
    """Two patches in conflict: they contradict each other, and neither has an effect. The lesser name stands first."""
    left: str
    right: str


class AnnotatedLine(NamedTuple):
    """A line of a file, and the patch that put it there."""
    name: str
    line: bytes


class Shown(NamedTuple):
    """A patch as it stands in a branch: its catches in camp's notation, and what they change there."""
    catches: List[str]
    changes: List[Change]


class HunkSide(NamedTuple):
    """The lines that an unresolved patch would put in the place of a hunk's."""
    name: str
    lines: List[bytes]


class Hunk(NamedTuple):
    """Lines of a file where unresolved sides differ: those that stand there now, and what each side has instead."""
    lines: List[bytes]
    sides: List[HunkSide]


class AcceptedCall(NamedTuple):
    """An accepted call: its number, counted from 1, the seat that asked it, and the command with its bodies as counts."""
    number: int
    seat: int
    command: str


class Outcome(NamedTuple):
    """What a call would do: the number that it would have, the conflicts and the files of its branch after it, and the conflicts
    that would become unresolved and those that would be resolved."""
    number: int
    conflicts: List[Conflict]
    tree: Tree
    opened: List[Conflict]
    resolved: List[Conflict]


class Answer:
    """The lines of a response that are not read yet. Whatever is read wrongly is `Unexpected`."""

    def __init__(self, response: bytes):
        self._lines, self._at = response.split(b"\n"), 0
        self._lines.pop()

    def begin_again(self) -> None:
        """Goes back to the first line."""
        self._at = 0

    def next_line(self) -> bytes:
        return self._next_lines(1)[0]

    def _next_lines(self, count: int) -> List[bytes]:
        found = self._lines[self._at:self._at + count]
        if len(found) < count:
            raise Unexpected("the answer ends too soon")
        self._at += count
        return found

    def next_words(self) -> List[str]:
        return self.next_line().decode("ascii", "replace").split(" ")

    def rest(self) -> Iterator[bytes]:
        while self._at < len(self._lines):
            yield self.next_line()

    def count(self, *words: str) -> int:
        """The number at the end of the next line, whose other words are these."""
        found = self.next_words()
        if found[:-1] != list(words):
            raise Unexpected(" ".join(found))
        return number(found[-1])

    def signed(self, count: int, sign: bytes) -> List[bytes]:
        """So many lines, each after a sign, which is taken off."""
        first, *found = b"\n".join([b"", *self._next_lines(count)]).split(b"\n" + sign)
        if first or len(found) != count:
            raise Unexpected("no line after {!r}".format(sign))
        return found


def number(text: str) -> int:
    if not (text.isascii() and text.isdigit()):
        raise Unexpected("no number: {!r}".format(text))
    return int(text)


def unsigned(line: bytes, sign: bytes) -> bytes:
    if not line.startswith(sign):
        raise Unexpected("no line after {!r}: {!r}".format(sign, line))
    return line[1:]


def read_names(answer: Answer) -> List[str]:
    return [line.decode("ascii", "replace") for line in answer.rest()]


def read_conflict(words: List[str]) -> Conflict:
    if len(words) != 2:
        raise Unexpected("no pair: {!r}".format(" ".join(words)))
    return Conflict(words[0], words[1])


def read_conflicts(answer: Answer) -> List[Conflict]:
    return [read_conflict(name.split(" ")) for name in read_names(answer)]


def read_tree(answer: Answer, files: int) -> Tree:
    """So many files: `file PATH LINES`, and the lines after `=`."""
    tree: Tree = {}
    for _ in range(files):
        words = answer.next_words()
        if len(words) != 3 or words[0] != "file":
            raise Unexpected(" ".join(words))
        tree[words[1]] = answer.signed(number(words[2]), b"=")
    return tree


def read_changes(answer: Answer) -> List[Change]:
    """The changes of a group."""
    return [_read_change(line.decode("ascii", "replace").split(" "), answer) for line in answer.rest()]


def _read_change(words: List[str], answer: Answer) -> Change:
    if len(words) == 2 and words[0] == "add":
        return Add(words[1])
    if len(words) == 2 and words[0] == "remove":
        return Remove(words[1])
    if len(words) != 3 or words[0] != "edit":
        raise Unexpected(" ".join(words))
    body = list(iter(answer.next_line, b"end"))
    old = [line[1:] for line in body if line[:1] == b"-"]
    new = [unsigned(line, b"+") for line in body[len(old):]]
    return Edit(words[1], number(words[2]), old, new)


def read_shown(answer: Answer) -> Shown:
    """The catches, each of which begins with a bracket, and then the changes."""
    lines = list(answer.rest())
    catches = [line.decode("ascii", "replace") for line in lines if line[:1] in (b"[", b"(")]
    changes = b"".join(line + b"\n" for line in lines[len(catches):])
    return Shown(catches, read_changes(Answer(changes)))


def read_annotated(answer: Answer) -> List[AnnotatedLine]:
    """Lines `NAME =LINE`."""
    found = []
    for line in answer.rest():
        name, _, rest = line.partition(b" ")
        found.append(AnnotatedLine(name.decode("ascii", "replace"), unsigned(rest, b"=")))
    return found


def read_marks(answer: Answer) -> List[Union[bytes, Hunk]]:
    """Lines after `=`, and hunks."""
    return [line[1:] if line[:1] == b"=" else _read_hunk(line.decode("ascii", "replace").split(" "), answer)
            for line in answer.rest()]


def _read_hunk(words: List[str], answer: Answer) -> Hunk:
    """`conflict SIDES LINES`, the lines, and of each side `side NAME LINES` and its lines."""
    if len(words) != 3 or words[0] != "conflict":
        raise Unexpected(" ".join(words))
    lines = answer.signed(number(words[2]), b"=")
    return Hunk(lines, [_read_side(answer) for _ in range(number(words[1]))])


def _read_side(answer: Answer) -> HunkSide:
    words = answer.next_words()
    if len(words) != 3 or words[0] != "side":
        raise Unexpected(" ".join(words))
    return HunkSide(words[1], answer.signed(number(words[2]), b"+"))


def read_history(answer: Answer) -> List[AcceptedCall]:
    """Lines `NUMBER SEAT COMMAND`."""
    calls = []
    for line in answer.rest():
        words = line.decode("ascii", "replace").split(" ", 2)
        if len(words) != 3:
            raise Unexpected(" ".join(words))
        calls.append(AcceptedCall(number(words[0]), number(words[1]), words[2]))
    return calls


def with_files(response: bytes, paths: Iterable[str]) -> bytes:
    """A response to `whatif` with no other files in its tree than these, as far as they are there."""
    at, words = 0, [b""]
    while words[0] != b"tree":
        end = response.find(b"\n", at)
        if end < 0:
            return response
        words, begin = response[at:end].split(b" "), at
        for _ in range(number(words[-1].decode("ascii", "replace")) if words[0] in (b"conflicts", b"opened", b"resolved") else 0):
            end = response.index(b"\n", end + 1)
        at = end + 1
    files = []
    for path in paths:
        # A line of a file begins with `=`, so this is found nowhere else.
        found = response.find(b"\nfile %s " % path.encode(), at - 1) + 1
        if found:
            end = response.index(b"\n", found) + 1
            count = number(response[found:end - 1].split(b" ")[-1].decode("ascii", "replace"))
            for _ in range(count):
                end = response.index(b"\n", end) + 1
            files.append(response[found:end])
    return b"".join([response[:begin], b"tree %d\n" % len(files), *files])


def read_outcome(accepted: int, answer: Answer) -> Outcome:
    """Reads what follows `ok NUMBER`: parts that say how many lines they have, the last one is the tree. Parts of later versions
    are skipped."""
    parts: Dict[str, List[List[str]]] = {}
    words = answer.next_words()
    while words[0] != "tree":
        parts[words[0]] = [answer.next_words() for _ in range(number(words[-1]))]
        words = answer.next_words()
    tree = read_tree(answer, number(words[-1]))
    conflicts, opened, resolved = ([read_conflict(pair) for pair in parts.get(word, [])] for word in ("conflicts", "opened", "resolved"))
    return Outcome(accepted, conflicts, tree, opened, resolved)
