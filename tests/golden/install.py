"""What ./install and ./release make works where it is put: programs, library, man pages, completions and the wheel.

The library is the one that golden/clients tries, if there is one; else a stand-in, with which programs are compiled and not run.
"""

import hashlib
import os
import re
import shutil
import subprocess
import sys
import tarfile
import tempfile
import zipfile

from tests.harness import programs
from tests.harness.clients import WARNINGS, built_library
from tests.harness.paths import TOP, read, read_text

SECONDS, GATE = 30, "after"
PROGRAMS = ("camp", "camp_shell")
# Pages with a C program, and what it prints.
PAGES = {"docs/embedding.md": b"ok 1\nok 2\ntree 1\nfile notes 1\n=hello\n"}
# What is to be completed, and how.
COMPLETED = {"--st": "--store", "--store no": "notes", "--store a": "a store", "--export x": "", "--l": "--load\n--limits"}
PYTHON = """
import camp, sys
camp.require_library()
print(camp.__version__, camp.__file__.startswith(sys.prefix))
if sys.argv[1:] == ["run"]:
    with camp.Repository() as repository:
        repository.record_text("main", "start", "notes", None, "hello")
        print(repository.tree("main"))
"""


def run(report, words):
    with tempfile.TemporaryDirectory(prefix="install-") as folder:
        built = f"{folder}/built"
        is_real = gather(report, built)
        prefix = f"{folder}/a place"
        done = call(["./install", "--from", built, prefix])
        report.expect_run("./install", done, f"camp {version()} is installed in {prefix}\n".encode())
        tries(report, prefix, is_real)
        man_pages(report, prefix)
        completions(report, prefix)
        refusals(report, folder)
        release(report, built, folder, is_real)


def version():
    return read_text(f"{TOP}/VERSION").strip()


def call(words, **how):
    return programs.run(words, **{"cwd": TOP, **how})


def gather(report, built):
    """Puts what ./build would make into a folder. Returns whether the library is the real one."""
    for it in ("bin", "lib", "include"):
        os.makedirs(f"{built}/{it}")
    for it in PROGRAMS:
        shutil.copy(programs.path(it), f"{built}/bin/{it}")
    shutil.copy(f"{TOP}/clients/c/include/camp.h", f"{built}/include/camp.h")
    found = built_library(report)
    if found:
        for it in ("libcamp.a", "libcamp.so"):
            shutil.copy(f"{found}/{it}", f"{built}/lib/{it}")
    elif shutil.which("cc"):
        report.skip("the library, which is not built: a stand-in")
        stand_in_library(f"{built}/lib")
    else:
        for it in ("libcamp.a", "libcamp.so"):
            open(f"{built}/lib/{it}", "wb").close()
    return bool(found)


def stand_in_library(folder, version=version()):
    """Compiles clients/c/tests/stand_in.c as both libraries, which say that they are of this version, or of another one."""
    flags = [*WARNINGS, "-fPIC", "-I", f"{TOP}/clients/c/include", f'-DCAMP_STAND_IN="{version}"']
    subprocess.run(["cc", *flags, "-c", f"{TOP}/clients/c/tests/stand_in.c", "-o", f"{folder}/stand_in.o"], check=True)
    subprocess.run(["ar", "rcs", f"{folder}/libcamp.a", f"{folder}/stand_in.o"], check=True)
    subprocess.run(["cc", "-shared", "-Wl,-soname,libcamp.so.0", f"{folder}/stand_in.o", "-o", f"{folder}/libcamp.so"], check=True)
    os.remove(f"{folder}/stand_in.o")


def tries(report, prefix, is_real):
    """Programs and library below a prefix work."""
    for it in PROGRAMS:
        done = call([f"{prefix}/bin/{it}", "--version"])
        report.expect_run(f"{it} --version", done, f"{it} {version()}\n".encode())
    report.expect_run("camp_shell", call([f"{prefix}/bin/camp_shell"], given=b"branches\n"), b"branches 1\nmain\n")
    report.count("programs", len(PROGRAMS))
    major = version().split(".")[0]
    report.expect("what libcamp.so leads to", os.readlink(f"{prefix}/lib/libcamp.so.{major}"), f"libcamp.so.{version()}")
    if shutil.which("readelf"):
        names = re.findall(rb"SONAME.*\[(.*)\]", call(["readelf", "-d", f"{prefix}/lib/libcamp.so"]).stdout)
        report.expect("the name of the library", names, [f"libcamp.so.{major}".encode()])
    if not (shutil.which("cc") and shutil.which("pkg-config")):
        report.skip("a C compiler with pkg-config")
        return
    for page, wanted in PAGES.items():
        (program,) = re.findall(r"^```c\n(.*?)^```$", read_text(f"{TOP}/{page}"), re.M | re.S)
        c_program(report, prefix, page, program, wanted, is_real)
    c_program(report, prefix, "example.c", read_text(f"{TOP}/clients/c/example.c"), read(f"{TOP}/clients/c/example.stdout"), is_real)


def c_program(report, prefix, name, text, wanted, is_real):
    """Compiles a program as pkg-config says, and runs it."""
    environment = {**os.environ, "PKG_CONFIG_PATH": f"{prefix}/lib/pkgconfig", "LD_LIBRARY_PATH": f"{prefix}/lib"}
    with tempfile.TemporaryDirectory(prefix="install-") as folder:
        with open(f"{folder}/program.c", "w", encoding="utf-8") as file:
            file.write(text)
        build = "eval cc -std=c11 -Wall -Wextra -Werror program.c -o program $(pkg-config --cflags --libs camp)"
        report.expect_run(f"{name}, compiled", call(["bash", "-c", build], cwd=folder, env=environment), b"")
        if is_real:
            report.expect_run(name, call([f"{folder}/program"], env=environment), wanted)
    report.count("C programs")


def man_pages(report, prefix):
    """Each page is rendered without a warning, and has a line for each option of its program."""
    if not shutil.which("groff"):
        report.skip("groff")
        return
    client = [sys.executable, "-m", "camp"]
    pages = {"man1/camp.1": [[f"{prefix}/bin/camp", "-h"]], "man1/camp_shell.1": [[f"{prefix}/bin/camp_shell", "-h"]],
             "man1/camp-python.1": [[*client, it, "-h"] for it in ("shell", "graph", "json")], "man7/camp-language.7": []}
    for page, helps in pages.items():
        done = call(["groff", "-ww", "-man", "-Tutf8", "-P-c", "-P-b", "-P-u", f"{prefix}/share/man/{page}"])
        report.expect(f"{page}: warnings and status", (done.stderr, done.returncode), (b"", 0))
        report.expect(f"{page}: its name", b"NAME" in done.stdout and os.path.basename(page)[:-2].encode() in done.stdout, True)
        report.count("man pages")
        for it in helps:
            said = call(it, env={**os.environ, "PYTHONPATH": f"{TOP}/clients/python"}).stdout
            options = re.findall(rb"(--[\w-]+)", said)
            report.expect(f"{page}: {it[-2]} has options", bool(options), True)
            missing = [it for it in options if it not in done.stdout.replace(b"\xe2\x80\x90", b"-").replace(b"\xe2\x88\x92", b"-")]
            report.expect(f"{page}: options that it lacks", missing, [])


def completions(report, prefix):
    """Bash completes options, and files after options that take one. Zsh finds its completions."""
    with tempfile.TemporaryDirectory(prefix="install-") as folder:
        for it in ("notes", "a store"):
            open(f"{folder}/{it}", "wb").close()
        for typed, wanted in COMPLETED.items():
            words = ["camp_shell", *typed.split()]
            script = (f"source '{prefix}/share/bash-completion/completions/camp_shell' && complete -p camp camp_shell >/dev/null\n"
                      f"COMP_WORDS=({' '.join(words)}) COMP_CWORD={len(words) - 1}; _camp_shell; (IFS=$'\\n'; echo \"${{COMPREPLY[*]}}\")\n")
            report.expect_run(f"the completion of {typed}", call(["bash", "-c", script], cwd=folder), f"{wanted}\n".encode())
            report.count("completions")
        if not shutil.which("zsh"):
            return report.skip("zsh")
        script = (f"fpath=('{prefix}/share/zsh/site-functions' $fpath); autoload -Uz compinit && compinit -D -u && print $_comps[camp] $_comps[camp_shell]\n"
                  "autoload -Uz +X _camp _camp_shell")
        report.expect_run("zsh", call(["zsh", "-f", "-c", script], cwd=folder), b"_camp _camp_shell\n")
        report.count("completions", 2)


def refusals(report, folder):
    """What can't be installed, or not there, is told, and nothing is left."""
    empty = f"{folder}/empty"
    os.mkdir(empty)
    # A prefix where one folder can't be made is left as it is: nobody gets half of an installation.
    os.makedirs(f"{folder}/half")
    open(f"{folder}/half/share", "wb").close()
    read_only = call(["./install", "--from", f"{folder}/built", f"{folder}/half"])
    report.expect_run("./install where a file stands", read_only, b"", f"install: {folder}/half/share: Not a directory; nothing is installed\n".encode(), 1)
    report.expect("what is in it", os.listdir(f"{folder}/half"), ["share"])
    unwritable(report, folder)
    another_version(report, folder)
    for words, error, status in (
        (["--from", empty, f"{folder}/none"], f"install: {empty}/bin/camp does not exist: run ./build first\n", 1),
        (["/proc/camp"], "install: /proc/camp: No such file or directory; nothing is installed\n", 1),
        (["--from", empty], "install: ./install [--from FOLDER] PREFIX\n", 2),
        ([], "install: ./install [--from FOLDER] PREFIX\n", 2),
    ):
        report.expect_run(f"./install {' '.join(words)}", call(["./install", *words]), b"", error.encode(), status)
        report.count("refusals")
    report.expect("what is left", os.listdir(f"{folder}/none"), [])


def unwritable(report, folder):
    """A prefix that may only be read, and a file that may not grow, are told by their names, and nothing is left."""
    os.mkdir(f"{folder}/read-only", 0o555)
    if os.geteuid() == 0 and not shutil.which("setpriv"):
        return report.skip("setpriv: nothing is read-only for root")
    # Root without the rights to pass over modes.
    rights = "-dac_override,-dac_read_search"
    before = [] if os.geteuid() else ["setpriv", f"--bounding-set={rights}", f"--inh-caps={rights}"]
    done = call([*before, "./install", "--from", f"{folder}/built", f"{folder}/read-only"])
    report.expect_run("./install into what is read-only", done, b"", f"install: {folder}/read-only: Permission denied; nothing is installed\n".encode(), 1)
    os.mkdir(f"{folder}/full")
    done = call(["./install", "--from", f"{folder}/built", f"{folder}/full"], preexec_fn=programs.limit_files(10_000))
    wanted = f"install: {folder}/full/bin/camp: File too large; nothing is installed\n".encode()
    report.expect_run("./install into what is full", done, b"", wanted, 1)
    for it in ("read-only", "full"):
        report.expect(f"what is in it: {it}", os.listdir(f"{folder}/{it}"), [])
        report.count("refusals")


def another_version(report, folder):
    """A library of another version is refused in words, by the package and by the system's loader."""
    if not shutil.which("cc"):
        return report.skip("a C compiler")
    os.mkdir(f"{folder}/other")
    stand_in_library(f"{folder}/other", "9.9.9")
    environment = {**os.environ, "PYTHONPATH": f"{TOP}/clients/python", "CAMP_LIB_DIR": f"{folder}/other"}
    said = call([sys.executable, "-c", "import camp; camp.require_library()"], env=environment).stderr.decode().splitlines()[-1]
    wanted = f"ImportError: {folder}/other/libcamp.so is camp 9.9.9, and this package is of camp {version()}: run clients/build, or install the wheel of the same release"
    report.expect("a library of another version", said, wanted)
    with open(f"{folder}/other/none.c", "w", encoding="ascii") as file:
        file.write("int nothing;\n")
    subprocess.run(["cc", "-shared", f"{folder}/other/none.c", "-o", f"{folder}/other/libcamp.so"], check=True)
    said = call([sys.executable, "-c", "import camp; camp.require_library()"], env=environment).stderr.decode().splitlines()[-1]
    report.expect("a library without an export", said, f"ImportError: {folder}/other/libcamp.so has no camp_ask: it is of another version of camp; run clients/build, or set CAMP_LIB_DIR")
    report.count("libraries of another version", 2)


def release(report, built, folder, is_real):
    """The archive and the wheel are the same each time, and work in a folder of their own."""
    first = call(["./release", "--from", built])
    report.expect("./release: status and standard error", (first.returncode, first.stderr), (0, b""))
    report.expect("./release once more", call(["./release", "--from", built]).stdout, first.stdout)
    names = [line.split("  ") for line in first.stdout.decode().splitlines()]
    for digest, name in names:
        report.expect(f"the digest of {name}", hashlib.sha256(read(f"{built}/{name}")).hexdigest(), digest)
        report.expect(f"{name}.sha256", read_text(f"{built}/{name}.sha256"), f"{digest}  {name}\n")
    (_, archive), (_, wheel) = names
    with tarfile.open(f"{built}/{archive}") as opened:
        opened.extractall(f"{folder}/unpacked")
    unpacked = f"{folder}/unpacked/{archive[: -len('.tar.gz')]}"
    report.expect("BUILD", read_text(f"{unpacked}/BUILD").split("\n")[0], f"camp {version()}")
    tries(report, unpacked, is_real)
    imports(report, f"{built}/{wheel}", f"{folder}/venv", is_real)


def imports(report, wheel, folder, is_real):
    """The wheel is imported in a virtual environment of its own. (clients/python/test_wheel.py installs it by pip.)"""
    if not is_real and not shutil.which("cc"):
        return
    subprocess.run([sys.executable, "-m", "venv", "--without-pip", folder], check=True)
    python = f"{folder}/bin/python3"
    place = call([python, "-c", "import sysconfig; print(sysconfig.get_paths()['purelib'])"]).stdout.decode().strip()
    with zipfile.ZipFile(wheel) as opened:
        opened.extractall(place)
    environment = {name: it for name, it in os.environ.items() if name not in ("CAMP_LIB_DIR", "PYTHONPATH")}
    wanted = f"{version()} True\n" + "{'notes': [b'hello']}\n" * is_real
    done = call([python, "-c", PYTHON, *(["run"] if is_real else [])], cwd=folder, env=environment)
    report.expect_run("the wheel", done, wanted.encode())
    report.expect_run("python3 -m camp", call([python, "-m", "camp", "--version"], cwd=folder, env=environment), f"camp {version()}\n".encode())
    report.count("wheels")
