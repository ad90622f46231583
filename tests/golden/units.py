"""Tests of crates that are written in Rattle pass: tests/data/units has a module of them for each crate.

Words: names of crates; none: all. The modules stand in one crate over the crates that they test, which `rt try` builds and runs without
proofs: as a part of its crate a test would be proved, and the crate with it once more.
"""

import os
import re

from tests.harness import unproved
from tests.harness.crates import below, copy_crates, uses_of
from tests.harness.folders import temporary
from tests.harness.paths import DATA, TOP, read_text, write_text

SECONDS, GATE = 120, "beside"
PASSED = re.compile(r"^test result: ok\. (\d+) passed; 0 failed; 0 ignored", re.M)


def run(report, words):
    names = words or sorted(os.listdir(f"{DATA}/units"))
    for it in names:
        if "mod tests;" in read_text(f"{TOP}/crates/{it}/src/lib.rt"):
            report.fail(f"{it}: tests stand in src/tests.rt too, where they are proved: move them to tests/data/units/{it}")
    with temporary("units-") as folder:
        modules = lay_out(names, folder)
        status, output, said = unproved.try_crate(f"{folder}/crates/units", ["--test"])
    number, shown = sum(it.count("#[test]") for it in modules), (output + said).decode(errors="replace")
    found = PASSED.search(shown)
    if status or not found or int(found[1]) != number:
        report.fail(shown[-3000:])
    report.count("tests", number)


def lay_out(names, folder):
    """Makes the crate `units`, beside copies of those that it stands on. Returns the texts of its modules, which name the crate that they
    test `crate`, as one of its own modules would."""
    uses = uses_of()
    tested = {it: [it, *uses[it]] for it in names}
    wanted = sorted({it for some in tested.values() for it in some})
    copy_crates({it for it in wanted if it in uses}.union(*(below(it, uses) for it in names)), folder, f"units: {' '.join(wanted)}\n")
    os.makedirs(f"{folder}/crates/units/src")
    modules = [read_text(f"{DATA}/units/{it}").replace("use crate::", f"use {it}::") for it in names]
    for name, text in zip(names, modules):
        write_text(f"{folder}/crates/units/src/of_{name}.rt", text)
    write_text(f"{folder}/crates/units/src/lib.rt", "".join(f"#[cfg(test)]\nmod of_{it};\n" for it in names))
    return modules
