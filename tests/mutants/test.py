"""A test notices each place where a rule turns: with another body there, the answers that crates/worked/turns names differ.

Words: CRATE or CRATE/src/FILE ..: the mutants of these; --find: prints tests that notice them.

crates/worked/turns names lines of the bodies, with what a careless reader could have written in their place and the test that
notices it: a table of crates/worked/stdin or of crates/worked_talks/stdin; `faults` or `answers`, the scripts of these files of
tests/data; `examples PART`, `shell PART` or `store PART`, a part of golden/camp, golden/shell or golden/store; `pieces PART`, one of
golden/pieces; `strangers PART`, one of faults/strangers; or `allocations`, golden/allocations. In a copy of the repository each
function has a body for each of its mutants, and a switch between them. The programs are built once, without proofs, and run with
each mutant.
"""

import collections
import os
import re
import subprocess
import sys
import time

from tests.golden.allocations import REFUSED
from tests.harness import programs, unproved
from tests.harness.folders import temporary
from tests.harness.paths import TOP, WORKED, read_text, write_text
from tests.harness.scripts import table_scripts
from tests.harness.worked import tables

SECONDS, GATE = 600, "never"
FN = re.compile(r"^( *)(?:pub(?:\([a-z]+\))? )?fn (\w+)", re.M)
# The copy's switch: the mutant is on whose number is that of an open file.
FIRST = 300
SWITCH = "//! Which mutant is on.\n\npub fn is_on(mutant: i32) -> bool {\n    libc::lseek(FIRST + mutant, 0, 1) >= 0\n}\n\nconst FIRST: i32 = 300;\n"
# A kind of test: its name, the crate of its program, and how that is built.
GOLDEN = {
    "examples": ("golden/camp", "camp", []),
    "shell": ("golden/shell", "camp_shell", []),
    "store": ("golden/store", "camp_shell", []),
    "pieces": ("golden/pieces", "camp_shell", []),
    "strangers": ("faults/strangers", "camp_shell", []),
    "allocations": ("golden/allocations", "worked", ["--fail-alloc", str(REFUSED)]),
}
# What takes so many seconds of a processor has noticed something as well; beside other work it may take so many times longer.
LIMIT, PATIENCE = 120, 20
# What a body says in one place of a file, what it could have said, and the test that notices the difference.
TestMutant = collections.namedtuple("TestMutant", "number file title old new test")


def read_mutants():
    found, file, title, old, new = [], None, "", [], []
    for line in read_text(f"{WORKED}/turns").splitlines():
        sign, words = line[:2].strip(), line[2:].strip()
        if line.startswith("=="):
            file = words
        elif sign == "#":
            title, old, new = words, [], []
        elif sign in ("-", "+"):
            (old if sign == "-" else new).append(words)
        elif sign == "=":
            found.append(TestMutant(len(found) + 1, file, title, " ".join(old), "\n".join(new), words))
    return found


def run(report, words):
    named = [it for it in words if not it.startswith("--")]
    mutants = [it for it in read_mutants() if not named or it.file in named or it.file.split("/")[0] in named]
    is_find, noticed = "--find" in words, {}
    with temporary("mutants-") as folder:
        make_copy(folder, mutants)
        for crate, known in known_tables().items():
            some = [it for it in mutants if is_find or it.test in known]
            if some:
                program = f"{folder}/{crate}"
                unproved.build(f"{folder}/crates/{crate}", program)
                noticed.update(find(program, some, known) if is_find else differing(program, [(it, it.test) for it in some], known, report))
        for kind in GOLDEN:
            noticed.update(by_program(report, folder, kind, [it for it in mutants if it not in noticed and it.test.split()[0] == kind]))
    for it in mutants:
        report.count("test mutants")
        if is_find:
            print(f"{it.file}: {it.title} = {' '.join(noticed.get(it, ['nothing']))}")
        elif it not in noticed:
            report.fail(f"{it.file}: {it.title}: {it.test} does not notice it")


def known_tables():
    """The tables of each program by their names, and the scripts of tests/data that can stand in one of runs in one thread: no
    line is empty."""
    found = tables("stdin")
    for name in ("faults", "answers"):
        scripts = [it.strip(b"\n") for it in table_scripts(name)]
        found[name] = b"table runs\n" + b"".join(b"run book\n" + it + b"\n\n" for it in scripts if it and b"\n\n" not in it)
    return {"worked": found, "worked_talks": tables("stdin", "worked_talks")}


def pattern_of(text):
    """The text with any blanks between its words, and with any or none beside its brackets."""
    return re.compile(r"\s*".join(map(re.escape, re.findall(r"\w+|\S", text))))


def body_of(source, place):
    """Where the body of the function begins and ends in which the place stands, without its braces."""
    head = [it for it in FN.finditer(source) if it.start() <= place][-1]
    opening = re.compile(rf"^{head[1]}(?:\{{|(?:pub|fn|\)).*\{{)$", re.M).search(source, head.start())
    return opening.end(), re.compile(rf"^{head[1]}\}}$", re.M).search(source, opening.end()).start()


def with_mutants(source, mutants):
    """The source, with a body for each mutant."""
    copies = {}
    for it in mutants:
        (found,) = pattern_of(it.old).finditer(source)
        bodies = {body_of(source, at) for at in (found.start(), found.end() - 1)}
        start, end = min(bodies)
        new = source[start : found.start()] + it.new + source[found.end() : end]
        if len(bodies) > 1 or found.end() > end:
            # The text goes on into the head of the next function, so that it stands there once.
            new = source[start : found.start()] + it.new[: it.new.rindex("}")]
        copies.setdefault((start, end), []).append((it.number, new))
    for (start, end), bodies in sorted(copies.items(), reverse=True):
        front = "".join(f"\n    if crate::mutating::is_on({number}) {{\n        return {{{body}}};\n    }}\n" for number, body in bodies)
        source = source[:start] + front + source[start:end] + source[end:]
    return source


def make_copy(folder, mutants):
    words = f"git ls-files --cached --others --exclude-standard -z | tar --null --ignore-failed-read --files-from=- -cf - | tar -xf - -C '{folder}'"
    subprocess.run(words, cwd=TOP, shell=True, check=True)
    change = lambda path, new: write_text(path, new(read_text(path)))
    for file in sorted({it.file for it in mutants}):
        change(f"{folder}/crates/{file}", lambda text: with_mutants(text, [it for it in mutants if it.file == file]))
    touched = sorted({it.file.split("/")[0] for it in mutants})
    for crate in touched:
        write_text(f"{folder}/crates/{crate}/src/mutating.rt", SWITCH)
        (top,) = (it for it in ("lib", "main") if os.path.exists(f"{folder}/crates/{crate}/src/{it}.rt"))
        change(f"{folder}/crates/{crate}/src/{top}.rt", lambda text: re.sub(r"^mod ", "mod mutating;\nmod ", text, count=1, flags=re.M))
    change(f"{folder}/crates.txt", lambda text: re.sub(rf"^({'|'.join(touched)}):", r"\1: libc", text, flags=re.M))


def answers(program, table, number=0):
    """What the program prints of the table with a mutant (0: none), and its status."""
    switch = f"exec {FIRST + number}</dev/null; " if number else ""
    words = ["bash", "-c", f'{switch}ulimit -t {LIMIT}; exec "$0"', program]
    try:
        done = programs.run(words, table, stderr=subprocess.DEVNULL, timeout=LIMIT * PATIENCE)
        return done.stdout, done.returncode
    except subprocess.TimeoutExpired:
        return b"", None


def find(program, mutants, known):
    """The mutants that quick tables notice, or slow ones where no quick one does."""
    quick, slow = [], []
    for name in known:
        started = time.time()
        answers(program, known[name])
        (quick if time.time() - started < 1 else slow).append(name)
    noticed = differing(program, [(it, name) for it in mutants for name in quick], known)
    return {**noticed, **differing(program, [(it, name) for it in mutants if it not in noticed for name in slow], known)}


def differing(program, pairs, known, report=None):
    """Of mutants with tables those that answer otherwise: the tables of each mutant. Reports a table that fails without a mutant."""
    names = sorted({name for _, name in pairs})
    plain, noticed = dict(programs.each(lambda it: answers(program, known[it]), names)), {}
    for name in names if report else ():
        report.expect(f"table {name} without a mutant", plain[name][1], 0)
    for (mutant, name), is_other in programs.each(lambda it: answers(program, known[it[1]], it[0].number) != plain[it[1]], pairs):
        if is_other:
            noticed.setdefault(mutant, []).append(name)
    return noticed


def by_program(report, folder, kind, mutants):
    """The mutants with which a part of a golden test finds something wrong, where it finds nothing wrong without them."""
    _, crate, words = GOLDEN[kind]
    program, noticed = f"{folder}/{crate}{'-failing' if words else ''}", {}
    if mutants and not os.path.exists(program):
        unproved.build(f"{folder}/crates/{crate}", program, words)
    for test in sorted({it.test for it in mutants}):
        report.expect(f"{test} without a mutant", is_well(test, program), True)
    for it in mutants:
        wrapper = f"{program}-{it.number}"
        write_text(wrapper, f'#!/bin/bash\nexec {FIRST + it.number}</dev/null\nexec -a {crate} {program} "$@"\n')
        os.chmod(wrapper, 0o755)
        if not is_well(it.test, wrapper):
            noticed[it] = [it.test]
    return noticed


def is_well(test, program):
    """Whether the part of a golden test, as `examples limits/calls` or `shell talks`, finds nothing wrong with a program."""
    kind, *part = test.split()
    name, crate, _ = GOLDEN[kind]
    words = [sys.executable, "-m", "tests", name, "--", *({"talks": "conversations"}.get(it, it) for it in part)]
    return programs.run(words, env={**os.environ, crate.upper(): program}, timeout=None).returncode == 0
