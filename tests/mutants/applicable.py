"""Each mutant can still be tried: its old text stands once in its file, its name is that of no other one of its crate."""

from tests.harness.crates import uses_of
from tests.harness.mutants import Mutant, mutants_of
from tests.harness.paths import TOP, read_text
from tests.mutants.test import pattern_of, read_mutants

SECONDS, GATE = 1, "beside"


def run(report, words):
    for crate in uses_of():
        names = set()
        for name, text in mutants_of(f"{TOP}/crates/{crate}", True):
            report.count("proof mutants")
            fault = "stands twice" if name in names else Mutant(name, text, f"{TOP}/crates/{crate}").fault
            names.add(name)
            if fault:
                report.fail(f"{crate} {name}: {fault}")
    for mutant in read_mutants():
        report.count("test mutants")
        times = len(pattern_of(mutant.old).findall(read_text(f"{TOP}/crates/{mutant.file}")))
        report.expect(f"{mutant.file}: how often the text of {mutant.title!r} stands there", times, 1)
