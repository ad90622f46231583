"""Compares what programs write with golden text, and reads the files of cases that hold it."""

import re

from tests.harness.paths import DATA, read, read_text

ESCAPE = re.compile(rb"\\(x[0-9a-fA-F]{1,2}|[0-7]{1,4}|.)", re.S)
LETTERS = {b"n": b"\n", b"r": b"\r", b"t": b"\t", b"v": b"\v", b"f": b"\f", b"a": b"\a", b"b": b"\b", b"\\": b"\\", b'"': b'"'}
REPETITION = re.compile(rb"\\\{(?:(\d+)\.\.)?(\d+) ")


def unescape(text):
    """The bytes of a text with the escapes of printf; `\\c` at the end of a line leaves out its LF. `\\{COUNT TEXT}` repeats a text,
    and so does `\\{FIRST..LAST TEXT}`, where each # is the number; in a repetition within another one each @ is."""
    return expanded(text.encode().replace(b"\\c\n", b""), b"#")


def expanded(text, counter):
    found = REPETITION.search(text)
    if not found:
        return ESCAPE.sub(lambda it: escaped(it[1]), text)
    end, depth = found.end(), 1
    while depth:
        depth += 1 if text.startswith(b"\\{", end) else -1 if text[end : end + 1] == b"}" else 0
        end += 1
    inner, first, last = expanded(text[found.end() : end - 1], b"@"), found[1], int(found[2])
    repeated = inner * last if first is None else b"".join(inner.replace(counter, b"%d" % it) for it in range(int(first), last + 1))
    return expanded(text[: found.start()], counter) + repeated + expanded(text[end:], counter)


def escaped(code):
    if code[:1] == b"x" and len(code) > 1:
        return bytes([int(code[1:], 16)])
    if code[:1].isdigit():
        return bytes([int(code, 8)])
    return LETTERS.get(code, b"\\" + code)


def cases(name):
    """The cases of a file of tests/data: a line `== NAME` begins one, lines `$ FLAGS` name command lines, and a line `--`
    stands between the input and the output. Each case: its name, its lists of flags, input and output."""
    parts = re.split(r"^== (.*)\n", read_text(f"{DATA}/{name}"), flags=re.M)[1:]
    for title, text in zip(parts[::2], parts[1::2]):
        flags = [it[1:].split() for it in re.findall(r"^\$.*", text, re.M)]
        given, wanted = re.split(r"^--\n", re.sub(r"^\$.*\n", "", text, flags=re.M), maxsplit=1, flags=re.M)
        yield title, flags, unescape(given), unescape(wanted)


def rows(name):
    """The rows of a table of tests/data: the words between tabs of each line that is no comment."""
    return [line.split("\t") for line in read_text(f"{DATA}/{name}").splitlines() if line and not line.startswith("#")]


def beside(path, ending, otherwise=b""):
    """The file beside another one, with an ending more; other bytes where there is none."""
    try:
        return read(path + ending)
    except FileNotFoundError:
        return otherwise
