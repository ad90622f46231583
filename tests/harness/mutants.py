"""Mutants for the prover: wrong bodies of crates/NAME/must-fail/*.edit and crates/NAME/planted.edits, and how they are applied.

A file of must-fail/ is one mutant: lines `file:`, and pairs of lines `old:` and `new:`. In planted.edits each mutant stands after a
line `edit: FUNCTION-what_is_wrong`, with an empty line between two.
"""

import glob
import os
import re

from tests.harness.paths import read_text

FUNCTION = re.compile(r"^\s*(?:pub(?:\([a-z]+\))?\s+)?(?:const\s+)?(?:unsafe\s+)?(?:extern\s+\"\w+\"\s+)?fn\s+(\w+)")
# Functions that `derive` writes, each with the trait that it writes them for.
DERIVED = {"clone": "Clone", "cmp": "Ord", "eq": "PartialEq", "fmt": "Debug", "partial_cmp": "PartialOrd"}
# An impl of a type's own methods, on one line.
IMPL = re.compile(r"impl(?:<.*?>)? (\w+)(?:<.*>)? {$")


def mutants_of(crate, is_all):
    """The mutants of a crate's folder by name: those of must-fail/, and if `is_all` the planted ones; each its name and text."""
    found = [(os.path.basename(it)[: -len(".edit")], read_text(it)) for it in glob.glob(f"{crate}/must-fail/*.edit")]
    if is_all and os.path.exists(f"{crate}/planted.edits"):
        found += [tuple(it.split("\n", 1)) for it in re.split(r"^edit: ", read_text(f"{crate}/planted.edits"), flags=re.M)[1:]]
    return sorted(found)


def pairs_of(text):
    """The replacements of a mutant: file, old text, new text; and the lines that belong to none."""
    pairs, strays, file, old = [], [], None, None
    for line in text.splitlines():
        word, _, rest = line.partition(":")
        if line.startswith("file: "):
            file = rest.strip()
        elif line.startswith("old: "):
            old = rest[1:]
        elif line.startswith("new:"):
            pairs.append((file, old, rest[1:]))
        elif line:
            strays.append(line)
    return pairs, strays


def times_in(text, part):
    """The occurrences of a part, which may overlap, as those of `aa` in `aaa`."""
    return len(re.findall(f"(?={re.escape(part)})", text)) if part else 0


class Mutant:
    """A mutant of a crate: its replacements, the functions that it changes, and why it can't be applied, if it can't."""

    def __init__(self, name, text, crate):
        self.name, self.crate, self.functions, self.files = name, crate, set(), {}
        self.pairs, strays = pairs_of(text)
        self.fault = f"no line of a mutant: {strays[0]}" if strays else None
        self.applied_to({})

    def applied_to(self, texts):
        """The texts with this mutant applied, by their files; None where an old text does not stand in its file once."""
        texts = dict(texts)
        for file, old, new in self.pairs:
            if file not in texts:
                texts[file] = read_text(f"{self.crate}/{file}")
            times = times_in(texts[file], old)
            if times != 1:
                self.fault = self.fault or f"{old!r} stands {times} times in {file}"
                return None
            line = texts[file].count("\n", 0, texts[file].index(old)) + 1
            function = function_at(texts[file], line) if file.endswith(".rt") else file
            if function:
                self.functions.add(function)
                self.files[function] = file
            texts[file] = texts[file].replace(old, new)
        return texts

    def asked(self):
        """The functions that a check is asked for: that of the mutant's name, or all that it changes."""
        function = self.name.partition("-")[0]
        found = [function] if function in self.files else [it for it, file in self.files.items() if file != it]
        return {path_of(it, self.files[it], self.crate) for it in found}


def sources(crate):
    return glob.glob(f"{crate}/src/**/*.rt", recursive=True)


def times_named(function, text):
    """How many functions of a text a check takes for one of this name: its own, what `derive` writes, and a closure that is passed to it."""
    is_derived = function in DERIVED and re.search(rf"derive\(.*\b{DERIVED[function]}\b", text)
    takes_closure = re.search(rf"\bfn {function}<[^(]*: Fn(?:Once|Mut)?\(", text)
    return sum(it[0] == function for it in functions_in(text)) + bool(is_derived) + bool(takes_closure)


def function_at(text, line):
    """The function in which a line stands: the last one that begins there or before."""
    return ([None] + [it[0] for it in functions_in("\n".join(text.split("\n")[:line]))])[-1]


def path_of(function, file, crate):
    """What a check is asked for: the name, where no other function has it, nor a closure that is passed to it; else with its type, if its
    file has one of this name and that is of no trait; else the module."""
    if sum(times_named(function, read_text(it)) for it in sources(crate)) == 1:
        return function
    owners = [owner for name, owner, _ in functions_in(read_text(f"{crate}/{file}")) if name == function]
    module = "::".join(it for it in file[len("src/") : -len(".rt")].split("/") if it not in ("lib", "main", "mod"))
    owner = owners[0] or module if len(owners) == 1 and owners[0] != "trait" else ""
    return f"{owner}::{function}" if owner else module


def functions_in(text):
    """The functions of a file, each with the type whose impl has it, or "trait", or None, and its text up to the next one."""
    found, owner = [], None
    for line in text.splitlines():
        name = FUNCTION.match(line)
        if line[:1] not in ("", " "):
            of_type = IMPL.match(line)
            owner = of_type[1] if of_type else "trait" if line.startswith("impl") or "trait " in line else None
        if name:
            found.append((name[1], owner, ""))
        if found:
            found[-1] = (*found[-1][:2], found[-1][2] + line + "\n")
    return found
