"""Each allocation of the tables memory-.. of crates/worked is refused in turn: the answers and all values are as ever.

Words: names of tables; none: those, and some of calls. Numbers of allocations from 1 on are tried, until 16 of them have refused nothing.
The first few come before the lines (status 4); where a line is out of memory (status 3), it is done again, with its values as the
clauses say that they were left, and the output has to be that of ample memory; status 0: nothing was refused, or std asked for less.
"""

import itertools

from tests.harness import programs
from tests.harness.refusals import can_refuse, refusing
from tests.harness.worked import tables

SECONDS, GATE = 60, "after worked"
CALLS = """calls-depending calls-from-under calls-conflict calls-three-in-conflict calls-conflict-with-two calls-one-with-two
    calls-three-conflicts calls-on-a-conflict calls-equal-changes calls-moving calls-seats""".split()
# So many runs in a row that refuse nothing say that all allocations were refused.
NOTHING = 16


def run(report, words):
    given, wanted, program = tables("stdin"), tables("stdout"), programs.path("worked")
    for name in (words or [*(it for it in given if it.startswith("memory-")), *CALLS]) if can_refuse(report, program) else ():
        refuse_each(report, program, name, given[name], wanted[name])
        report.count("tables")


def refuse_each(report, program, name, lines, wanted):
    quiet, has_begun = 0, False
    for number, done in programs.each(lambda it: programs.run([program], lines, env=refusing(it)), itertools.count(1)):
        has_begun = has_begun or done.returncode != 4
        if has_begun and (done.returncode not in (0, 3) or done.stdout != wanted):
            report.fail(f"table {name}, allocation {number}: status {done.returncode}, {'as' if done.stdout == wanted else 'not as'} expected")
        report.count("refused allocations", done.returncode == 3)
        quiet = quiet + 1 if done.returncode == 0 else 0
        if quiet == NOTHING:
            break
