"""What a proof of all crates has made: the programs, the library and the libraries of the crates in out/, with a digest of the text
that was proved."""

import glob
import hashlib
import os
import shutil
import subprocess

from .layout import BUILT, PROGRAMS, TOP

DIGEST = f"{BUILT}/proved"
# The copy of the crates that `rt ci` has proved, with the library or the program in each crate's out/. It is one file: `rt ci` at the
# top would refuse sources that stand elsewhere than in crates/.
TREE = f"{BUILT}/tree.tar"
# Of a crate's folder what `rt ci` reads.
PARTS, FILES = ("src", "specs", "proofs", "data"), ("stdin", "stdout", "args", "status")
# The files of the library, each with its folder below out/.
LIBRARY = {"libcamp.a": "lib", "libcamp.so": "lib", "camp.h": "include"}


def copy(path, to):
    os.makedirs(os.path.dirname(to), exist_ok=True)
    shutil.copy(path, to)


def digest():
    """The SHA-256 of the kit's name, of all that `rt ci` reads, and of what the library is made from."""
    kit = subprocess.run(["rt", "version"], stdout=subprocess.PIPE, check=True).stdout
    found = hashlib.sha256(kit)
    paths = [it for part in PARTS for it in glob.glob(f"{TOP}/crates/*/{part}/**", recursive=True)]
    paths += [it for name in FILES for it in glob.glob(f"{TOP}/crates/*/{name}")]
    paths += [f"{TOP}/{it}" for it in ("crates.txt", "HANDLES", "VERSION", "clients/build", "clients/c/texts.c", "clients/c/include/camp.h")]
    for path in sorted(it for it in paths if os.path.isfile(it)):
        with open(path, "rb") as file:
            found.update(repr((os.path.relpath(path, TOP), file.read())).encode())
    return found.hexdigest()


def are_kept():
    """Whether out/ has the programs and the library of just this text, proved."""
    if not os.path.isfile(DIGEST):
        return False
    files = [f"bin/{it}" for it in PROGRAMS] + [f"{folder}/{it}" for it, folder in LIBRARY.items()]
    with open(DIGEST, encoding="ascii") as file:
        return file.read() == digest() and all(os.path.isfile(f"{BUILT}/{it}") for it in files)


def unpack_tree(folder):
    """Makes a folder the proved copy of just this text. Returns whether there is one."""
    is_there = are_kept() and os.path.isfile(TREE)
    if is_there:
        shutil.unpack_archive(TREE, folder)
    return is_there


def keep_programs(tree):
    """Copies the programs that `rt ci` has left in a tree to out/bin."""
    for name in PROGRAMS:
        copy(f"{tree}/crates/{name}/out/{name}", f"{BUILT}/bin/{name}")


def keep_library(folder):
    """Copies what clients/build has left in a folder to out/lib and out/include."""
    for name, to in LIBRARY.items():
        copy(f"{folder}/{name}", f"{BUILT}/{to}/{name}")


def lend_library(folder):
    """Copies the library to a folder, as clients/build leaves it."""
    for name, to in LIBRARY.items():
        copy(f"{BUILT}/{to}/{name}", f"{folder}/{name}")


def keep_tree(tree, text):
    """Keeps a tree that `rt ci` has proved, and notes that all in out/ was made from the text of this digest."""
    shutil.make_archive(TREE[: -len(".tar")], "tar", tree)
    with open(DIGEST, "w", encoding="ascii") as file:
        file.write(text)


def forget():
    """Notes that what stands in out/ may be of another text."""
    for it in (DIGEST, TREE):
        if os.path.exists(it):
            os.remove(it)
