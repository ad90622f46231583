"""Each excerpt of a source in README.md, docs/ and the READMEs of crates is what the source has, word for word.

Each part of a block of Rust, up to an empty line, stands in one file of crates/NAME/src or clients/rust, after the part before it.
A block that names a file of its own, as "```rust src/main.rt" of docs/library.md, is none (golden/library).
"""

import glob
import re

from tests.harness.paths import read_text

SECONDS, GATE = 1, "beside"
BLOCK = re.compile(r"^```rust\n(.*?)^```$", re.M | re.S)


def run(report, words):
    files = glob.glob("crates/*/src/**/*.rt", recursive=True) + glob.glob("clients/rust/*/*.rs")
    sources = [f"\n{read_text(it)}" for it in files]
    for page in sorted(["README.md", *glob.glob("docs/*.md"), *glob.glob("*/*/README.md"), *glob.glob("*/README.md")]):
        text = read_text(page)
        for block in BLOCK.finditer(text):
            report.count("excerpts")
            parts = re.split(r"\n{2,}", block[1].strip("\n"))
            if not any(has_parts(it, parts) for it in sources):
                report.fail(f"{page}:{text.count(chr(10), 0, block.start()) + 1}: no source has it")


def has_parts(text, parts):
    """Whether the parts stand in the text one after the other, each in whole lines."""
    at = 0
    for part in parts:
        found = text.find(f"\n{part}\n", at)
        if found < 0:
            return False
        at = found + len(part) + 1
    return True
