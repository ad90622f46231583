"""The crate of docs/library.md can be copied into a repository of its own, and writes there what the page says.

Words: --prove: it is proved too. Each block of the page whose fence names a file is that file: its line of crates.txt, its
sources, and what it writes.
"""

import subprocess

from tests.harness import unproved
from tests.harness.crates import lay_out
from tests.harness.folders import temporary
from tests.harness.paths import TOP

SECONDS, GATE = 100, "beside"


def run(report, words):
    with temporary("library-") as folder:
        name, wanted = lay_out(f"{TOP}/docs/library.md", folder)
        crate = f"{folder}/crates/{name}"
        status, output, said = unproved.try_crate(crate)
        if not report.expect(f"what {name} writes", (status, output), (0, wanted.encode())):
            report.note(said[-3000:].decode(errors="replace"))
        report.count("crates")
        if words == ["--prove"]:
            report.expect("the status of its check", subprocess.run(["rt", "check"], cwd=crate).returncode, 0)
            report.count("proofs")
