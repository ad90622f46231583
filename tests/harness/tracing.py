"""Stops a program at each of its system calls, as a debugger does: the call can be failed or cut short, or the program killed
there. For Linux on x86-64."""

import contextlib
import ctypes
import dataclasses
import os
import platform
import re
import signal
import struct

TRACEME, SET_REGISTER, SYSCALL, SET_OPTIONS, GET_CALL = 0, 6, 24, 0x4200, 0x420E
# Stops at system calls have a bit of their own in the signal; and what is traced ends with this process.
MARK_SYSTEM_CALLS, KILL_WITH_TRACER = 1, 0x100000
AT_CALL = signal.SIGTRAP | 0x80
# What the system tells of a call: 24 bytes of no interest here, then its number and six arguments, or at its end its result.
CALL = struct.Struct("24x7Q")
NAMES = {1: "write", 18: "pwrite", 74: "fsync", 75: "fdatasync", 77: "ftruncate", 87: "unlink"}
# Where registers stand: the result of a call, the size of a write, and the number of a call that begins.
RAX, RDX, NUMBER = 10 * 8, 12 * 8, 15 * 8

LIBC = ctypes.CDLL(None, use_errno=True)
LIBC.ptrace.restype = ctypes.c_long
LIBC.ptrace.argtypes = [ctypes.c_long, ctypes.c_long, ctypes.c_void_p, ctypes.c_void_p]


@dataclasses.dataclass
class Call:
    """A system call: its name (None: of no interest here), its file, what it writes at which offset, and so many bytes of that."""

    name: str
    file: str = None
    at: int = None
    data: bytes = None
    size: int = 0


def ptrace(request, pid, where=0, data=0):
    if LIBC.ptrace(request, pid, where, data) < 0:
        raise OSError(ctypes.get_errno(), "ptrace")


def can_trace():
    """Whether this machine lets a program be traced."""
    if platform.machine() != "x86_64" or platform.system() != "Linux":
        return False
    try:
        return run(["/bin/true"], [])[0] == 0
    except OSError:
        return False


def run(words, commands, alone=False, at_call=lambda call: None, folder="."):
    """Runs a program in a folder over commands: all at once, or each after the answer to the one before. At each system call `at_call` is
    called with it, and decides: None, ("fail", errno), ("short", bytes), or "kill". Returns the exit
    status, standard output, standard error, and the calls that did not fail."""
    source, feed = os.pipe()
    out, error = os.memfd_create("out"), os.memfd_create("error")
    pid = os.fork()
    if pid == 0:
        try:
            for file, stream in ((source, 0), (out, 1), (error, 2)):
                os.dup2(file, stream)
            os.closerange(3, 100)
            os.chdir(folder)
            ptrace(TRACEME, 0)
            os.execv(words[0], words)
        finally:
            os._exit(127)
    os.close(source)
    with os.fdopen(feed, "wb", buffering=0) as given:
        left = sending(given, commands if alone else [b"".join(commands)])
        next(left)
        if not alone:
            given.close()
        status, calls = follow(pid, left, at_call)
    return status, content(out), content(error), calls


def sending(given, commands):
    """Sends a command at each step, and then ends the input."""
    for it in commands:
        given.write(it)
        yield
    given.close()


def content(memory_file):
    with os.fdopen(memory_file, "rb") as file:
        file.seek(0)
        return file.read()


def follow(pid, left, at_call):
    """Lets the program run to its end. After each answer the next command is sent."""
    calls = []
    os.waitpid(pid, 0)
    ptrace(SET_OPTIONS, pid, 0, MARK_SYSTEM_CALLS | KILL_WITH_TRACER)
    while (status := next_stop(pid)) is None:
        call = call_of(pid)
        decision = at_call(call)
        if decision == "kill":
            os.kill(pid, signal.SIGKILL)
            return exit_code(os.waitpid(pid, 0)[1]), calls
        begin(pid, call, decision)
        status = next_stop(pid)
        if status is not None:
            break
        result = end(pid, call, decision)
        if call.name and result < 2**63:
            call.data = call.data and call.data[:result]
            calls.append(call)
            if (call.name, call.file) == ("write", "out"):
                next(left, None)
    return status, calls


def next_stop(pid):
    """Lets the program run until a system call begins or ends; its status where it has ended itself."""
    while True:
        ptrace(SYSCALL, pid)
        _, status = os.waitpid(pid, 0)
        if not os.WIFSTOPPED(status):
            return exit_code(status)
        if os.WSTOPSIG(status) == AT_CALL:
            return None


def exit_code(status):
    """The exit status, or a signal below zero."""
    return -os.WTERMSIG(status) if os.WIFSIGNALED(status) else os.WEXITSTATUS(status)


def begin(pid, call, decision):
    """Puts a call that does not exist in place of one that is to fail, and cuts a write."""
    if decision and decision[0] == "fail":
        ptrace(SET_REGISTER, pid, NUMBER, 2**64 - 1)
    elif decision:
        ptrace(SET_REGISTER, pid, RDX, min(call.size, decision[1]))


def end(pid, call, decision):
    """The result of a call, above 2^63 where it has failed. The program finds the size of a write as it was."""
    if decision and decision[0] == "fail":
        ptrace(SET_REGISTER, pid, RAX, 2**64 - decision[1])
    elif decision:
        ptrace(SET_REGISTER, pid, RDX, call.size)
    return told(pid)[0]


def told(pid):
    """The number of a call that begins, and its arguments; or the result of one that ends."""
    buffer = ctypes.create_string_buffer(CALL.size)
    ptrace(GET_CALL, pid, CALL.size, ctypes.addressof(buffer))
    return CALL.unpack(buffer.raw)


def call_of(pid):
    number, first, place, size, offset, _, _ = told(pid)
    name = NAMES.get(number)
    if name in (None, "unlink"):
        return Call(name)
    file, data = "", None
    with contextlib.suppress(OSError):
        file = re.sub(r"^/memfd:(\w+).*", r"\1", os.readlink(f"/proc/{pid}/fd/{first}"))
    if name in ("write", "pwrite"):
        with open(f"/proc/{pid}/mem", "rb", buffering=0) as memory:
            memory.seek(place)
            data = memory.read(size)
    return Call(name, file, offset if name == "pwrite" else None, data, size)
