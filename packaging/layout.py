"""Which files an installation has, and where."""

import os
import shutil
import subprocess

from . import completions, helptext, man

TOP = os.path.dirname(os.path.dirname(os.path.abspath(__file__)))
# Where ./build puts what it makes.
BUILT = f"{TOP}/out"
PROGRAMS = ("camp", "camp_shell")
PKG_CONFIG = """prefix={prefix}
libdir=${{prefix}}/lib
includedir=${{prefix}}/include

Name: camp
Description: A repository of named patches, as a library
Version: {version}
Libs: -L"${{libdir}}" -lcamp
Libs.private: -lpthread
Cflags: -I"${{includedir}}"
"""


def version():
    with open(f"{TOP}/VERSION", encoding="utf-8") as file:
        return file.read().strip()


def commit():
    """The commit of the checkout, or `unknown` where there is none."""
    ran = subprocess.run(["git", "rev-parse", "--short=12", "HEAD"], cwd=TOP, stdout=subprocess.PIPE, stderr=subprocess.DEVNULL, text=True)
    return ran.stdout.strip() or "unknown"


class Missing(Exception):
    """Something that ./build makes is not there."""


def built(source, path):
    if not os.path.isfile(f"{source}/{path}"):
        raise Missing(f"{source}/{path} does not exist: run ./build first")
    return f"{source}/{path}"


def write(path, text):
    os.makedirs(os.path.dirname(path), exist_ok=True)
    with open(path, "w", encoding="utf-8") as file:
        file.write(text)


def copy(path, to, mode):
    os.makedirs(os.path.dirname(to), exist_ok=True)
    shutil.copyfile(path, to)
    os.chmod(to, mode)


def lay_out(folder, prefix, source=BUILT):
    """Puts all that is installed below a folder, which has to be empty; `prefix` is where it will stand in the end, and `source`
    has what ./build makes."""
    number = version()
    major = number.split(".")[0]
    helps = {}
    for name in PROGRAMS:
        copy(built(source, f"bin/{name}"), f"{folder}/bin/{name}", 0o755)
        helps[name] = helptext.help_of(f"{folder}/bin/{name}")
        write(f"{folder}/share/man/man1/{name}.1", man.program_page(name, helps[name], number))
        write(f"{folder}/share/zsh/site-functions/_{name}", completions.zsh(name, helps[name]))
    write(f"{folder}/share/man/man1/camp-python.1", man.python_page(TOP, number))
    with open(f"{TOP}/docs/language.md", encoding="utf-8") as file:
        write(f"{folder}/share/man/man7/camp-language.7", man.language_page(file.read(), number))
    for name in PROGRAMS:
        # bash loads the file of the name of the command
        write(f"{folder}/share/bash-completion/completions/{name}", completions.bash(helps))
    copy(built(source, "lib/libcamp.a"), f"{folder}/lib/libcamp.a", 0o644)
    copy(built(source, "lib/libcamp.so"), f"{folder}/lib/libcamp.so.{number}", 0o755)
    for link in (f"libcamp.so.{major}", "libcamp.so"):
        os.symlink(f"libcamp.so.{number}", f"{folder}/lib/{link}")
    copy(built(source, "include/camp.h"), f"{folder}/include/camp.h", 0o644)
    write(f"{folder}/lib/pkgconfig/camp.pc", PKG_CONFIG.format(prefix=prefix, version=number))
    lay_out_documents(f"{folder}/share/doc/camp")


def lay_out_documents(folder):
    for name in ("README.md", "CHANGELOG.md"):
        copy(f"{TOP}/{name}", f"{folder}/{name}", 0o644)
    for part in ("docs", "examples"):
        shutil.copytree(f"{TOP}/{part}", f"{folder}/{part}", ignore=shutil.ignore_patterns("*.py", "*.status", "*.stderr", "*.flags"))
