"""Runs tests of this repository.

python3 -m tests --list              a line for each test: what it shows, its seconds, and when the gate runs it
python3 -m tests NAME ..             runs some: golden/shell, or a folder: golden
python3 -m tests NAME -- WORD ..     gives words to one test: golden/shell -- conversations
python3 -m tests --help NAME         what a test shows, and the words that it takes
python3 -m tests --programs          runs the tests of the gate that build nothing
python3 -m tests --gate              the whole gate, as .ci/run does

The exit status is 0 if nothing was wrong. JOBS is how many programs run at once: as many as there are processors if not set.
"""

import os
import sys

sys.dont_write_bytecode = True

from tests import gate, registry
from tests.harness.paths import TOP
from tests.harness.report import Report


def main(words):
    os.chdir(TOP)
    options = [it for it in words[: words.index("--") if "--" in words else None] if it.startswith("-")]
    names, given = (words[: words.index("--")], words[words.index("--") + 1 :]) if "--" in words else (words, [])
    names = [it for it in names if not it.startswith("-")]
    if options == ["--list"]:
        return print_list()
    if options == ["--gate"]:
        return gate.run_all()
    if options == ["--programs"]:
        return gate.run_tests([it for it in registry.all_tests() if it.gate != registry.NEVER and it.seconds < 100])
    tests = registry.named(names)
    if tests is None or options not in ([], ["--help"]) or (given and len(tests) != 1):
        print("python3 -m tests: no such test or option; --list has all tests", file=sys.stderr)
        return 2
    if options == ["--help"] or not tests:
        for it in tests:
            print(f"{it.name}: {it.shows}\n{it.help.rstrip()}\n")
        return 0 if tests else print(__doc__)
    if len(tests) > 1:
        return gate.run_tests(tests)
    report = Report(tests[0].name)
    tests[0].run(report, given)
    return report.finish()


def print_list():
    for it in registry.all_tests():
        print(f"{it.name:28} {it.seconds:5} s  {it.gate:22} {it.shows}")
    return 0


sys.exit(main(sys.argv[1:]))
