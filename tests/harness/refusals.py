"""Programs whose allocations are counted, or one of them refused: clients/c/tests/refuse.c stands between them and the C library."""

import functools
import os
import shutil
import subprocess
import tempfile

from tests.harness import programs, unproved
from tests.harness.paths import TOP

SOURCE = f"{TOP}/clients/c/tests/refuse.c"
FLAGS = ["-std=c11", "-D_GNU_SOURCE", "-Wall", "-Wextra", "-Werror", "-O2", "-shared", "-fPIC"]


@functools.lru_cache(maxsize=None)
def shim():
    return unproved.once("refuse.so", lambda path: subprocess.run(["cc", *FLAGS, SOURCE, "-o", path], check=True), [SOURCE])


def refusing(number, counts=None):
    """The environment in which the allocation of this number is refused (0: none), and all are counted in a file of eight zero bytes."""
    return {**os.environ, "LD_PRELOAD": shim(), "CAMP_REFUSED": str(number), **({"CAMP_ALLOCATIONS": counts} if counts else {})}


def counted(words, given):
    """A run that is refused none, and how many allocations the program asked for."""
    with tempfile.NamedTemporaryFile(prefix="allocations-") as file:
        file.write(bytes(8))
        file.flush()
        done = programs.run(words, given, env=refusing(0, file.name))
        file.seek(0)
        return done, int.from_bytes(file.read(8), "little")


def is_failing(program):
    """Whether a program was built without proofs so that one of its allocations fails, as mutants/test does."""
    return os.path.basename(program).startswith("worked-failing")


def can_refuse(report, program):
    """Whether a program's allocations are asked of the C library: the checks of one that was built without proofs have a memory of their own."""
    if not shutil.which("cc"):
        report.skip("a C compiler")
    elif is_failing(program) or counted([program], b"#\n")[1]:
        return True
    else:
        report.skip("refused allocations: the program was built without proofs")
    return False
