"""Runs `camp`, or `camp_shell`, and compares all that it writes."""

from tests.harness import programs

# Most scripts are run by threads over a head, and in one thread.
WAYS = ([], ["--serial"])


class Program:
    """One of both programs, and the report of a test."""

    def __init__(self, report, crate):
        self.report, self.crate, self.program = report, crate, programs.path(crate)

    def run(self, given=b"", flags=(), **how):
        return programs.run([self.program, *flags], given, **how)

    def expect(self, what, done, output=b"", error=None, status=0):
        """Compares a run; `error` is what standard error reports."""
        self.report.expect_run(what, done, output, b"" if error is None else f"{self.crate}: {error}\n".encode(), status)
        self.report.count("runs")

    def answers(self, what, script, output=b"", fault=None, ways=WAYS):
        """A script is answered so, or has this fault, in each way."""
        for flags in ways:
            self.expect(" ".join([what, *flags]), self.run(script, flags), output, fault, 0 if fault is None else 1)

    def has_spaces(self):
        """Whether address spaces can be limited; else says why they are not tried."""
        if not programs.is_plain(self.program):
            self.report.skip("address spaces: the program was built without proofs, and its checks want terabytes of them")
            return False
        return True
