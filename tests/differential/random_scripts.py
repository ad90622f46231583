"""camp answers random scripts as another program did that was written from the same rules.

Words: none: the scripts of tests/data/random_scripts, by the digests of their answers;
--against PROGRAM FIRST LAST: these seeds, byte by byte, beside another program that takes the word --serial;
--table PROGRAM FIRST LAST: prints the lines of such a table; --show SEED: prints a script.
"""

import hashlib
import os
import sys

from tests.harness import golden, programs
from tests.harness.scripts import script_of

SECONDS, GATE = 1, "after camp"


def run(report, words):
    program, (option, *rest) = programs.path("camp"), words or [None]
    if option == "--show":
        sys.stdout.buffer.write(script_of(int(rest[0])))
        return report.count("scripts")
    table = {int(seed): wanted for seed, wanted in (line.split() for (line,) in golden.rows("random_scripts"))}
    seeds = range(int(rest[1]), int(rest[2]) + 1) if option else table
    if option == "--table":
        for it in programs.each(lambda seed: digest(rest[0], seed), seeds):
            print(*it)
    elif option == "--against":
        for seed, pair in programs.each(lambda seed: (answer(program, seed), answer(rest[0], seed)), seeds):
            report.expect(f"the script of seed {seed}", *pair)
    else:
        for seed, found in programs.each(lambda seed: digest(program, seed), seeds):
            report.expect(f"the script of seed {seed}", found, table[seed])
    report.count("scripts", len(seeds))


def answer(program, seed):
    """Standard output, standard error with the name `camp`, and the status."""
    done = programs.run([program, "--serial"], script_of(seed))
    return done.stdout, done.stderr.replace(os.path.basename(program).encode() + b": ", b"camp: ", 1), done.returncode


def digest(program, seed):
    out, error, status = answer(program, seed)
    return hashlib.sha256(b"%d\n%s\n%s" % (status, error, out)).hexdigest()[:16]
