"""Checks of one crate: in its folder, and by the prover's own command over the libraries of a tree."""

import os
import subprocess

from tests.harness.crates import below, uses_of
from tests.harness.paths import TOP, read_text
from tests.harness.programs import JOBS


def words_over(name, tree):
    """The words of a check of a crate, in a copy of its folder, over the libraries that `rt ci` or `rt check` has left in the tree."""
    kit = os.path.dirname(subprocess.run(["rt", "doc"], stdout=subprocess.PIPE, check=True).stdout.decode().strip())
    uses = uses_of()
    rlib = lambda it: f"{tree}/crates/{it}/out/rlib/{it}.rlib" if it in uses else f"{kit}/rlibs/{it}.rlib"
    root = "main" if os.path.exists(f"{TOP}/crates/{name}/src/main.rt") else "lib"
    words = [f"{kit}/bin/rattle", "check", "--crate-name", name, f"src/{root}.rt"]
    words += ["--crate-type", "staticlib"] if f"{name} staticlib:" in read_text(f"{TOP}/crates.txt") else []
    for it in ["std", *uses[name]]:
        words += ["--extern", f"{it}={rlib(it)}"]
    for it in [f"{kit}/rlibs", *(os.path.dirname(rlib(it)) for it in sorted(below(name, uses)))]:
        words += ["-L", f"dependency={it}"]
    return [*words, "--antt-project", f"{kit}/rattle/logic/antt-project.json", "--logic-built", f"{kit}/logic_built"]


def check_in_place(name):
    """Checks a crate in its folder, as `rt check` does: over what earlier checks kept, libraries below it first. Returns what it prints."""
    return printed_by(["rt", "check", "--jobs", str(min(2, JOBS))], f"{TOP}/crates/{name}")


def printed_by(words, folder):
    how = {"stdin": subprocess.DEVNULL, "stdout": subprocess.PIPE, "stderr": subprocess.STDOUT}
    return subprocess.run(words, cwd=folder, **how).stdout.decode(errors="replace")
