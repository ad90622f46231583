"""Each module of a crate begins with a line `//!` that says what stands in it."""

import glob

from tests.harness.paths import read_text

SECONDS, GATE = 1, "beside"
# Modules that have none yet. The list only gets shorter.
KNOWN = {"crates/camp_repo/src/limits.rt"}


def run(report, words):
    bare = set()
    for path in glob.glob("crates/*/src/**/*.rt", recursive=True):
        report.count("modules")
        if not read_text(path).startswith("//! "):
            bare.add(path)
    report.expect("modules without a line `//!`", sorted(bare), sorted(KNOWN))
