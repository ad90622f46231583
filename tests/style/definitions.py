"""No more names of definitions stand in several crates than are known: a name means one thing in the whole repository.

Words: list, to print each such name with the files that define it. Reads crates/*/specs/**/*.antt: `abbrev`, `record`
and `data`, and functions that have a signature of their own. Fields of records, constructors and re-exports (`pub use`)
are no definitions.
"""

import glob
import re
from collections import defaultdict

SECONDS, GATE = 1, "beside"
# How many names stand in several crates today. The number only goes down.
KNOWN = 0

DEFINITION = re.compile(r"^(?P<indent> *)(?:(?:abbrev pub|pub abbrev|abbrev|pub record|record|pub data|data|pub) )(?P<name>[^\s:{(,]+)")
BLOCK = re.compile(r"^(?P<indent> *)(?:pub )?(?:record|data) ")
NOT_NAMES = {"use", "mod", "record", "data", "abbrev", "unfoldable"}


def definitions(path):
    """The names that a file defines, without the fields and constructors of its types."""
    names = []
    block = None
    with open(path, encoding="utf-8") as lines:
        for line in lines:
            if not line.strip() or line.lstrip().startswith("--"):
                continue
            indent = len(line) - len(line.lstrip(" "))
            if block is not None and indent > block:
                continue
            block = None
            if BLOCK.match(line):
                block = indent
            found = DEFINITION.match(line)
            if found and found["name"] not in NOT_NAMES:
                names.append(found["name"])
    return names


def run(report, words):
    places = defaultdict(lambda: defaultdict(list))
    for path in sorted(glob.glob("crates/*/specs/**/*.antt", recursive=True)):
        crate = path.split("/")[1]
        for name in definitions(path):
            report.count("definitions")
            places[name][crate].append(path)
    shared = {name: crates for name, crates in places.items() if len(crates) > 1}
    if "list" in words:
        for name, crates in sorted(shared.items()):
            report.note(f"{name}: {' '.join(path for paths in crates.values() for path in paths)}")
    report.expect("at most as many names in several crates as are known", len(shared) <= KNOWN, True)
    report.note(f"{len(shared)} names stand in several crates")
