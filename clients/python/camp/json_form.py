"""Responses as JSON: one object for each response, and back to the same text. docs/tools.md has the objects.

The first line of a response says how many lines it has, so a stream of responses can be converted while it comes:

    while (response := next_response(stream.readline)):
        print(to_json(response))

A line is a string, or `{"base64": ..}` where its bytes are no UTF-8. A response of a form that is not known here has its lines as
they are.
"""

from __future__ import annotations

import base64
import json
from typing import Any, BinaryIO, Callable, Dict, Iterable, List, Tuple

from .answers import (Answer, Hunk, Shown, Tree, number, read_annotated, read_changes, read_conflict, read_conflicts, read_history, read_marks,
                      read_names, read_shown, read_tree, unsigned)
from .changes import Add, Change, Edit, Remove
from .errors import Unexpected

# A value of JSON, and the fields of an object.
Value = Any
Fields = Dict[str, Value]
# The parts of what a call would do, before its files.
PARTS = ("conflicts", "opened", "resolved")
# The first words of responses of one line.
ALONE = (b"ok", b"refused", b"fault", b"memory", b"no", b"client")


def next_response(readline: Callable[[], bytes]) -> bytes:
    """The next response of a stream; empty at its end. `Unexpected` where a response is cut or is none."""
    first = readline()
    if not first:
        return b""
    lines = [_whole(first)]
    words = first[:-1].split(b" ")
    if words[0] in ALONE:
        return first
    if len(words) != 2 or not words[1].isdigit():
        raise Unexpected("no first line of a response: {!r}".format(first))
    for _ in range(int(words[1])):
        lines.append(_whole(readline()))
        if words[0] == b"tree":
            lines += [_whole(readline()) for _ in range(number(lines[-1][:-1].rpartition(b" ")[2].decode("ascii", "replace")))]
    return b"".join(lines)


def _whole(line: bytes) -> bytes:
    if not line.endswith(b"\n"):
        raise Unexpected("the response ends too soon")
    return line


def to_json(response: bytes) -> str:
    """A response as an object, in ASCII and on one line."""
    return json.dumps(to_object(response))


def from_json(text: str) -> bytes:
    """The response that an object stands for. A ValueError says what is wrong in it."""
    try:
        return from_object(json.loads(text))
    except KeyError as error:
        raise ValueError("no response: it has no {}".format(error)) from None
    except (TypeError, AttributeError):
        raise ValueError("no response: a value of another kind is wanted") from None


def to_object(response: bytes) -> Fields:
    """A response as an object."""
    try:
        found = _read(response)
        if from_object(found) == response:
            return found
    except Unexpected:
        pass
    first, *lines = response.split(b"\n")[:-1]
    return {"answer": first.split(b" ")[0].decode("ascii", "replace"), "lines": _lines(lines)}


def from_object(found: Fields) -> bytes:
    """The response that an object stands for."""
    word = found["answer"]
    if word in ("ok", "refused", "fault", "memory", "no file", "client"):
        return _alone(found)
    if word == "tree":
        return b"tree %d\n" % len(found["files"]) + _joined(_written_files(found["files"]))
    form = _FORMS.get(word)
    # A response of an unknown form has its lines as they are.
    written = list(form[1](found) if form and ("lines" not in found or word in ("file", "annotate")) else map(_bytes, found["lines"]))
    return b"%s %d\n" % (word.encode(), len(written)) + _joined(written)


def convert(source: BinaryIO, out: BinaryIO) -> None:
    """Writes an object for each response of a stream, as soon as it is whole."""
    while True:
        response = next_response(source.readline)
        if not response:
            return
        out.write(to_json(response).encode("ascii") + b"\n")
        out.flush()


def convert_back(source: BinaryIO, out: BinaryIO) -> None:
    """Writes the response for each object of a stream, which has one in a line."""
    for count, line in enumerate(source, 1):
        try:
            out.write(from_json(line.decode("utf-8")))
        except ValueError as error:
            raise ValueError("line {}: {}".format(count, error)) from None
        out.flush()


def _read(response: bytes) -> Fields:
    answer = Answer(response)
    words = answer.next_words()
    if words[0] in ("ok", "client"):
        return {"answer": words[0], "number": number(words[-1])}
    if words[0] == "refused":
        return {"answer": "refused", "number": number(words[1]), "names": words[2:]}
    if words[0] == "fault":
        return {"answer": "fault", "line": number(words[1]), "kind": " ".join(words[2:])}
    if words in (["memory"], ["no", "file"]):
        return {"answer": " ".join(words)}
    if words[0] == "tree":
        return {"answer": "tree", "files": _files(read_tree(answer, number(words[1])))}
    if words[0] not in _FORMS:
        raise Unexpected(words[0])
    return {"answer": words[0], **_FORMS[words[0]][0](answer)}


def _alone(found: Fields) -> bytes:
    """The line of a response that has one."""
    words = [found["answer"]]
    if words == ["fault"]:
        words += [found["line"], found["kind"]]
    elif words[0] in ("ok", "refused", "client"):
        words += [found["number"], *found.get("names", ())]
    return " ".join(map(str, words)).encode() + b"\n"


def _line(line: bytes) -> Value:
    try:
        return line.decode("utf-8")
    except UnicodeDecodeError:
        return {"base64": base64.b64encode(line).decode("ascii")}


def _bytes(line: Value) -> bytes:
    found = line.encode("utf-8") if isinstance(line, str) else base64.b64decode(line["base64"], validate=True)
    if b"\n" in found:
        raise ValueError("more than one line: {!r}".format(found))
    return found


def _lines(lines: Iterable[bytes]) -> List[Value]:
    return [_line(it) for it in lines]


def _signed(sign: bytes, lines: Iterable[Value]) -> List[bytes]:
    return [sign + _bytes(it) for it in lines]


def _joined(lines: Iterable[bytes]) -> bytes:
    return b"".join(it + b"\n" for it in lines)


def _files(tree: Tree) -> List[Fields]:
    return [{"path": path, "lines": _lines(lines)} for path, lines in tree.items()]


def _written_files(files: List[Fields]) -> List[bytes]:
    return [line for it in files for line in
            (b"file %s %d" % (it["path"].encode(), len(it["lines"])), *_signed(b"=", it["lines"]))]


def _change(change: Change) -> Fields:
    if isinstance(change, Edit):
        return {"change": "edit", "path": change.path, "line": change.line, "old": _lines(change.old), "new": _lines(change.new)}
    return {"change": "add" if isinstance(change, Add) else "remove", "path": change.path}


def _written_changes(changes: List[Fields]) -> List[bytes]:
    found: List[bytes] = []
    for it in changes:
        made = {"add": Add, "remove": Remove}.get(it["change"])
        change = made(it["path"]) if made else Edit(it["path"], it["line"], [*map(_bytes, it["old"])], [*map(_bytes, it["new"])])
        found += change.text().split(b"\n")[:-1]
    return found


def _part(part: Any) -> Value:
    """A line of a file with marks, or a hunk."""
    if not isinstance(part, Hunk):
        return _line(part)
    return {"lines": _lines(part.lines), "sides": [{"name": it.name, "lines": _lines(it.lines)} for it in part.sides]}


def _written_part(part: Value) -> List[bytes]:
    if isinstance(part, str) or "base64" in part:
        return [b"=" + _bytes(part)]
    found = [b"conflict %d %d" % (len(part["sides"]), len(part["lines"])), *_signed(b"=", part["lines"])]
    for it in part["sides"]:
        found += [b"side %s %d" % (it["name"].encode(), len(it["lines"])), *_signed(b"+", it["lines"])]
    return found


def _would(answer: Answer) -> Fields:
    """What a call would be answered, and if it would be accepted also what its branch would have then."""
    lines = list(answer.rest())
    if not lines or not lines[0].startswith(b"ok "):
        return {"would": to_object(_joined(lines))}
    found, rest = _read(_joined(lines[:1])), Answer(_joined(lines[1:]))
    words = rest.next_words()
    while words[0] != "tree":
        found[words[0]] = [list(read_conflict(rest.next_words())) for _ in range(number(words[-1]))]
        words = rest.next_words()
    return {"would": {**found, "files": _files(read_tree(rest, number(words[-1])))}}


def _written_would(found: Fields) -> List[bytes]:
    would = found["would"]
    if would["answer"] != "ok":
        return from_object(would).split(b"\n")[:-1]
    lines = [_alone(would)[:-1]]
    for part in PARTS:
        if part in would:
            lines += [b"%s %d" % (part.encode(), len(would[part])), *_written_words(would[part])]
    return [*lines, b"tree %d" % len(would["files"]), *_written_files(would["files"])]


def _written_words(rows: Iterable[Iterable[str]]) -> List[bytes]:
    return [" ".join(it).encode() for it in rows]


# Of each word of a response with a count: how its lines are read, and written again.
Form = Tuple[Callable[[Answer], Fields], Callable[[Fields], Iterable[bytes]]]
_NAMES: Form = (lambda it: {"names": read_names(it)}, lambda it: [name.encode() for name in it["names"]])
_CONFLICTS: Form = (lambda it: {"conflicts": [list(pair) for pair in read_conflicts(it)]}, lambda it: _written_words(it["conflicts"]))
_TEXT: Form = (lambda it: {"lines": _lines(it.rest())}, lambda it: map(_bytes, it["lines"]))
_FORMS: Dict[str, Form] = {
    **{word: _NAMES for word in ("branches", "names", "needs", "held", "missing", "along")},
    "conflicts": _CONFLICTS, "open": _CONFLICTS, "keep": _TEXT, "why": _TEXT, "help": _TEXT,
    "file": (lambda it: {"lines": _lines(unsigned(line, b"=") for line in it.rest())}, lambda it: _signed(b"=", it["lines"])),
    "annotate": (lambda it: {"lines": [{"name": line.name, "line": _line(line.line)} for line in read_annotated(it)]},
                 lambda it: [line["name"].encode() + b" =" + _bytes(line["line"]) for line in it["lines"]]),
    "graph": (lambda it: {"dot": _joined(it.rest()).decode("ascii", "replace")}, lambda it: it["dot"].encode().split(b"\n")[:-1]),
    "show": (lambda it: _shown(read_shown(it)), lambda it: [*map(str.encode, it["catches"]), *_written_changes(it["changes"])]),
    "side": (lambda it: {"changes": [*map(_change, read_changes(it))]}, lambda it: _written_changes(it["changes"])),
    "marks": (lambda it: {"parts": [*map(_part, read_marks(it))]}, lambda it: [line for part in it["parts"] for line in _written_part(part)]),
    "history": (lambda it: {"calls": [call._asdict() for call in read_history(it)]},
                lambda it: _written_words((str(call["number"]), str(call["seat"]), call["command"]) for call in it["calls"])),
    "whatif": (_would, _written_would),
}


def _shown(shown: Shown) -> Fields:
    return {"catches": shown.catches, "changes": [*map(_change, shown.changes)]}
