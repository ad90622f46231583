"""Reads the responses of a conversation with camp_shell one by one."""

from tests.harness import programs

# Responses whose first line counts the lines after it.
COUNTED = (b"conflicts", b"names", b"branches", b"keep")


def ask(peer, command):
    """Sends a command and reads its response."""
    programs.send(peer, command)
    return b"".join(response(peer.stdout.readline))


def response(next_line):
    """The lines of the next response, of a function that reads a line."""
    lines = [next_line()]
    words = lines[0].split()
    if words[0] in COUNTED:
        lines += [next_line() for _ in range(int(words[1]))]
    if words[0] == b"tree":
        for _ in range(int(words[1])):
            lines.append(next_line())
            lines += [next_line() for _ in range(int(lines[-1].split()[2]))]
    return lines


def frame(text):
    return b"%d\n%b" % (len(text), text)


def respond(words, requests):
    """The response of a program to each request, in frames."""
    rest = programs.run([*words, "--frames"], b"".join(map(frame, requests))).stdout
    while rest:
        size, _, rest = rest.partition(b"\n")
        yield rest[: int(size)]
        rest = rest[int(size) :]


def responses(text):
    """The responses in an output: the words of each first line, and the lines after it."""
    lines, found = iter(text.split(b"\n")[:-1]), []
    for first in lines:
        whole = response(lambda first=iter([first]): next(first, None) or next(lines))
        found.append((whole[0].split(), whole[1:]))
    return found


def commands_of(text):
    """The commands of a conversation, with their bodies."""
    found, end = [], None
    for line in text.splitlines(keepends=True):
        words = line.split()
        if end:
            found[-1] += line
            end = None if words[:1] == [end] else end
            continue
        found.append(line)
        if words[:1] in ([b"record"], [b"whatif"]):
            end = b"end" if b"edit" in words else b"done" if b"group" in words else None
    return found
