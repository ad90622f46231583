"""./build says of each crate that it is proved, and leaves what it made in out/; it and the gate prove no text twice; clients/build is not silent.

Words: none. A few crates and tests, and stand-ins for the kit's `rt` and for clients/build.
"""

import os
import re
import shutil
import subprocess
import sys

from tests.harness import programs
from tests.harness.folders import temporary
from tests.harness.paths import TOP, read_text, write_text

SECONDS, GATE = 10, "beside"
CRATES = "camp_base:\ncamp: camp_base\ncamp_shell: camp_base\ncamp_c staticlib: camp_base\nworked: camp_base\n"
# Proves the crates of crates.txt, but for the one that UNPROVED names, and notes in the file `proofs` that it does; a crate is kept where
# KEPT has it. Of a run over one crate nothing is kept.
KIT = """#!/bin/bash
case $1 in version) echo kit; exit ;; doc) echo "$(dirname "$0")/page"; exit ;; esac
if [ "$1" = lib ]; then
    echo "rt: camp_base proved"
    if [ "$UNPROVED" ]; then echo "rt: $UNPROVED NOT PROVED"; exit 1; fi
    mkdir -p out && cp "$(dirname "$0")/libcamp_c.a" out/ && echo "rt: camp_c proved"
    exit
fi
if [ $# -gt 1 ]; then echo "1 passed, 0 failed"; exit; fi
echo >>"$(dirname "$0")/proofs"
status=0
for crate in $(sed 's/[: ].*//' crates.txt); do
    mkdir crates/$crate/out && echo $crate >crates/$crate/out/$crate
    case " $KEPT " in *" $crate "*) echo "rt: $crate is kept" ;; *)
        if [ $crate = "$UNPROVED" ]; then status=1; echo "rt: $crate NOT PROVED"; else echo "rt: $crate proved"; fi ;;
    esac
done
echo "5 passed, $status failed"
exit $status
"""
LIBRARY = """#!/bin/bash
echo >>kit/libraries
mkdir -p out/clients && touch out/clients/libcamp.a out/clients/libcamp.so out/clients/camp.h && echo out/clients
"""
# Tests of the gate: one runs beside the proofs, one over a program and the library.
TEST = '''"""A test."""
import os
from tests.harness import programs
from tests.harness.clients import built_library
SECONDS, GATE = 1, "{gate}"
def run(report, words):
    if GATE != "beside":
        report.expect("a program", open(programs.path("camp")).read(), "camp\\n")
        report.expect("the library", os.listdir(built_library(report, makes=True)) != [], True)
    report.count("tests")
'''
ENDING = "out/bin has the programs, out/lib and out/include the library for C"


def run(report, words):
    with temporary("build-") as folder:
        make(folder)
        # What is named for other tests, as a library that is built, is none of this one's.
        own = {name: value for name, value in os.environ.items() if not name.startswith("CAMP")}
        environment = {**own, "PATH": f"{folder}/kit:{os.environ['PATH']}", "CI": ""}
        found = build(report, "from nothing", folder, environment)
        wanted = ("camp_base", "camp", "camp_shell", "camp_c", "worked")
        report.expect("crates", found, [f"{name} proved {left} left" for name, left in zip(wanted, (4, 3, 2, 1, 0))])
        report.expect("programs", sorted(os.listdir(f"{folder}/out/bin")), ["camp", "camp_shell"])
        report.expect("library", sorted([*os.listdir(f"{folder}/out/lib"), *os.listdir(f"{folder}/out/include")]), ["camp.h", "libcamp.a", "libcamp.so"])
        report.expect_run("the same text", call(folder, environment), f"{ENDING}: they are of this text, and proved\n".encode())
        gate(report, folder, environment)
        changed(report, folder, environment)
        wrong(report, folder, environment)
        library(report, folder, environment)


def gate(report, folder, environment):
    """The gate takes what ./build has proved of the same text, and ./build what the gate has; with CI set the gate proves it, and so
    it does with another text, be it of a table."""
    taken = "rt ci: not run, since ./build or an earlier gate has proved this text; CI=1 .ci/run proves from nothing"
    for what, change, ci, proves in (("after ./build", None, "", 0), ("with CI", None, "1", 1), ("after a gate", None, "", 0),
                                     ("a changed table", "crates/worked/stdin", "", 1), ("a changed crate", "crates/camp/src/main.rt", "", 1)):
        if change:
            write_text(f"{folder}/{change}", what)
        before = counts(folder)
        done = programs.run([sys.executable, "-m", "tests", "--gate"], cwd=folder, env={**environment, "CI": ci})
        output = done.stdout.decode()
        last = f"{7 if proves else 2} passed, 0 failed"
        report.expect(f"{what}: the gate", (output.splitlines()[-1:], done.returncode, taken in output), ([last], 0, not proves))
        report.expect(f"{what}: proofs, libraries", counts(folder), [it + proves for it in before])
        report.expect_run(f"{what}: ./build", call(folder, environment), f"{ENDING}: they are of this text, and proved\n".encode())
        report.expect(f"{what}: proofs and libraries of ./build", counts(folder), [it + proves for it in before])
        report.count("gates")


def counts(folder):
    """How often the kit has proved the crates, and how often the library was built."""
    return [len(read_text(f"{folder}/kit/{it}")) for it in ("proofs", "libraries")]


def library(report, folder, environment):
    """clients/build says on standard error what the kit says, and puts the library where it says; it ends where the kit ends badly."""
    if not (shutil.which("cc") and shutil.which("ar")):
        return report.skip("a C compiler")
    for it in ("clients/build", "clients/c/texts.c", "clients/c/include/camp.h"):
        shutil.copy(f"{TOP}/{it}", f"{folder}/{it}")
    os.makedirs(f"{folder}/kit/c", exist_ok=True)
    build_archive(f"{folder}/kit/c/liblibc_c.a", "int of_the_kit;")
    build_archive(f"{folder}/kit/libcamp_c.a", "int of_the_crate;")
    done = programs.run(["clients/build"], cwd=folder, env=environment)
    said = b"".join(b"rt: %s proved\n" % it for it in (b"camp_base", b"camp_c"))
    report.expect_run("clients/build", done, f"{folder}/out/clients\n".encode(), said)
    report.expect("what it has left", sorted(os.listdir(f"{folder}/out/clients")), ["camp.h", "libcamp.a", "libcamp.so"])
    done = programs.run(["clients/build"], cwd=folder, env={**environment, "UNPROVED": "camp_c"})
    report.expect_run("clients/build without a proof", done, b"", b"rt: camp_base proved\nrt: camp_c NOT PROVED\n", 1)
    report.count("builds", 2)


def build_archive(path, text):
    write_text(f"{path}.c", f"{text}\n")
    subprocess.run(["cc", "-c", "-fPIC", f"{path}.c", "-o", f"{path}.o"], check=True)
    subprocess.run(["ar", "rcs", path, f"{path}.o"], check=True)


def make(folder):
    """A repository of a few crates and tests, with this one's ./build and gate."""
    for it in ("build", "VERSION", "HANDLES"):
        shutil.copy(f"{TOP}/{it}", folder)
    for it in ("packaging", "tests/harness"):
        shutil.copytree(f"{TOP}/{it}", f"{folder}/{it}", ignore=shutil.ignore_patterns("__pycache__"))
    crates = re.findall(r"^\w+", CRATES, re.M)
    for path in ("clients/c/include", "kit", "tests/mutants", "tests/style", *(f"crates/{it}/src" for it in crates)):
        os.makedirs(f"{folder}/{path}")
    for it in ("__init__", "__main__", "gate", "registry", "mutants/proof"):
        shutil.copy(f"{TOP}/tests/{it}.py", f"{folder}/tests/{it}.py")
    for path, text in (("crates.txt", CRATES), ("crates/camp/src/main.rt", "one"), ("crates/worked/stdin", "one"), ("clients/c/texts.c", ""),
                       ("clients/c/include/camp.h", ""), ("tests/style/beside.py", TEST.format(gate="beside")),
                       ("tests/style/program.py", TEST.format(gate="after camp"))):
        write_text(f"{folder}/{path}", text)
    for path, text in (("kit/rt", KIT), ("clients/build", LIBRARY)):
        write_text(f"{folder}/{path}", text)
        os.chmod(f"{folder}/{path}", 0o755)


def call(folder, environment, *words):
    return programs.run([sys.executable, f"{folder}/build", *words], cwd=folder, env=environment)


def build(report, what, folder, environment):
    """What a build that passes says of each crate, without the seconds."""
    done = call(folder, environment)
    lines = done.stdout.decode().splitlines()
    report.expect(f"{what}: the ends", (lines[:1], lines[-2:]), (["5 crates; the longest chain decides how long it takes"], ["        building the library for C", ENDING]))
    report.expect(f"{what}: status", (done.stderr, done.returncode), (b"", 0))
    report.count("builds")
    return [" ".join(re.fullmatch(r" +\d+ s  (\w+) +(\w+) +(\d+) left", it).groups()) + " left" for it in lines[1:-2]]


def changed(report, folder, environment):
    """A changed source is proved, and what the kit has kept is not."""
    write_text(f"{folder}/crates/camp/src/main.rt", "two")
    found = build(report, "a changed source", folder, {**environment, "KEPT": "camp_base camp_shell camp_c worked"})
    wanted = ["camp_base kept 4 left", "camp proved 3 left", "camp_shell kept 2 left", "camp_c kept 1 left", "worked kept 0 left"]
    report.expect("a changed source: crates", found, wanted)


def wrong(report, folder, environment):
    """What is not proved is not left as proved; the command line, and a machine without the kit."""
    write_text(f"{folder}/crates/camp/src/main.rt", "three")
    done = call(folder, {**environment, "UNPROVED": "camp"})
    said = f"build: rt ci did not pass; all that it said is in {folder}/out/build.log"
    report.expect("not proved", (done.stderr.decode().splitlines()[-1], done.returncode, b"camp             NOT PROVED" in done.stdout), (said, 1, True))
    report.expect("not proved: what is left of it", [it for it in ("proved", "tree.tar") if os.path.exists(f"{folder}/out/{it}")], [])
    done = call(folder, environment, "--programs")
    report.expect("programs alone", (done.stdout.decode().splitlines()[0][:8], done.stdout.decode().splitlines()[-1]), ("3 crates", "out/bin has the programs"))
    report.expect_run("a word", call(folder, environment, "all"), b"", b"build: ./build, or ./build --programs\n", 2)
    bare = {**environment, "PATH": f"{folder}/bin"}
    report.expect_run("no kit", call(folder, bare), b"", b"build: the kit's command rt is not on the PATH: see README.md\n", 1)
    report.count("wrong builds", 3)
