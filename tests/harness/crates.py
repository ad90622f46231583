"""The crates of crates.txt: what each one uses; and crates that a page shows, laid out in a repository of their own."""

import os
import re
import shutil

from tests.harness.paths import TOP, read_text, write_text

# A block of a page: the file that its fence names, and its text.
BLOCK = re.compile(r"^```\w+ (\S+)\n(.*?)^```$", re.M | re.S)


def lines_of_crates(text):
    """The libraries that each crate uses, by a text as crates.txt."""
    lines = [it.partition(":") for it in text.splitlines() if ":" in it and not it.startswith("#")]
    return {name.split()[0]: uses.split() for name, _, uses in lines}


def uses_of(tree=TOP):
    return lines_of_crates(read_text(f"{tree}/crates.txt"))


def reached(name, following):
    """The name, all that follow it, and those that follow these."""
    found, left = set(), [name]
    while left:
        it = left.pop()
        if it not in found:
            found.add(it)
            left += following.get(it, ())
    return found


def below(name, uses):
    """The libraries of the repository that a crate uses, and those that they use."""
    return reached(name, uses) & set(uses) - {name}


def copy_crates(names, folder, more=""):
    """Copies crates into a repository of their own, whose crates.txt has some lines more."""
    write_text(f"{folder}/crates.txt", "".join(f"{it}: {' '.join(uses)}\n" for it, uses in uses_of().items() if it in names) + more)
    for it in names:
        shutil.copytree(f"{TOP}/crates/{it}", f"{folder}/crates/{it}", ignore=shutil.ignore_patterns("out", "planted*", "must-fail"))


def lay_out(page, folder):
    """Lays the crate whose files a page shows out in a folder, with the crates that it stands on. Returns its name, and its output."""
    files = {file: text for file, text in BLOCK.findall(read_text(page))}
    own, wanted = files.pop("crates.txt"), files.pop("stdout", "")
    name = own.partition(":")[0]
    copy_crates(below(name, {**uses_of(), **lines_of_crates(own)}), folder, own)
    for file, text in {"stdin": "", **files, "stdout": wanted}.items():
        path = f"{folder}/crates/{name}/{file}"
        os.makedirs(os.path.dirname(path), exist_ok=True)
        write_text(path, text)
    return name, wanted
