"""camp answers its scripts: examples, short ones, faults, both sides of each limit, command lines, and clients in threads.

Words: examples, tables, clients, limits name parts; limits/calls the scripts of tests/data/limits whose names begin so.
"""

import collections
import glob
import os
import re

from tests.harness import golden
from tests.harness.camp import WAYS, Program
from tests.harness.paths import DATA, EXAMPLES, TOP, read
from tests.harness.scripts import crowd

SECONDS, GATE = 16, "after camp"


def run(report, words):
    camp = Program(report, "camp")
    parts = {"examples": examples, "tables": tables, "clients": clients, "limits": limits}
    for word in words or parts:
        name, _, some = word.partition("/")
        parts[name](camp, *([some] if some else []))


def examples(camp):
    """Each example has its output, standard error, status and flags beside it: none, none, 0, and both ways where there is
    no such file."""
    for path in sorted(glob.glob(f"{EXAMPLES}/*.camp")):
        script, flags = read(path), golden.beside(path, ".flags").decode().splitlines()
        status = int(golden.beside(path, ".status", b"0"))
        for words in map(str.split, flags or ["", "--serial"]):
            what = " ".join([os.path.basename(path), *words])
            camp.report.expect_run(what, camp.run(script, words), golden.beside(path, ".stdout"), golden.beside(path, ".stderr"), status)
            camp.report.count("runs")


def tables(camp):
    for line, fault, script in golden.rows("faults"):
        camp.answers(f"fault: {script}", golden.unescape(script), fault=f"line {line}: {fault}")
    prefixes(camp)
    for title, flags, script, answers in golden.cases("answers"):
        camp.answers(title, script, answers, ways=flags or WAYS)
    command_lines(camp)
    help_text(camp)


def limits(camp, part=""):
    """Scripts at a limit, and one beyond it."""
    for title, flags, script, wanted in golden.cases("limits"):
        if title.startswith(part) and wanted.startswith(b"!"):
            camp.answers(title, script, fault=wanted[1:-1].decode(), ways=[[]])
        elif title.startswith(part):
            camp.answers(title, script, wanted, ways=flags or WAYS)


def prefixes(camp):
    """Each prefix of the first example: its answers, or its fault."""
    script = read(f"{EXAMPLES}/first.camp")
    for first, last, wanted in golden.rows("prefixes"):
        for size in range(int(first), int(last) + 1):
            if wanted.startswith("="):
                camp.answers(f"prefix of {size} bytes", script[:size], golden.unescape(wanted[1:]))
            else:
                camp.answers(f"prefix of {size} bytes", script[:size], fault=wanted)


def command_lines(camp):
    """Command lines that are refused, before anything is read, and those that are accepted."""
    script = read(f"{EXAMPLES}/fault.camp")
    for flags, error in golden.rows("refused_options"):
        done = camp.run(script, flags.split())
        camp.report.expect_run(f"options: {flags}", done, b"", golden.unescape(error), 2)
        camp.report.count("runs")
    script, answers = read(f"{EXAMPLES}/first.camp"), read(f"{EXAMPLES}/first.camp.stdout")
    history = b"history 2\n1 0 record main a add f\n2 0 record main b edit f 1 0 1\n"
    for (flags,) in golden.rows("accepted_options"):
        camp.answers("options:", script, answers + history * ("--history" in flags), ways=[flags.split()])


def help_text(camp):
    """The help text, short and long, or the version is all that is written; the example of the long one is answered as it says."""
    text, short, script = read(f"{DATA}/help"), read(f"{DATA}/short_help"), read(f"{EXAMPLES}/fault.camp")
    version = b"camp " + read(f"{TOP}/VERSION")
    texts = {"--help": text, "--serial --help": text, "--help extra": text, "-h": short, "--serial -h": short, "--version": version,
             "-V": version, "--serial --version": version, "-V extra": version}
    for flags, wanted in texts.items():
        camp.answers("options:", script, wanted, ways=[flags.split()])
    example = re.search(rb"^The script\n(.*)^is answered by\n(.*?)^Commands, ", text, re.M | re.S)
    answers = b"".join(it for it in example[2].splitlines(keepends=True) if it.strip())
    camp.answers("the example of the help text", example[1], answers)


def clients(camp):
    """Clients in threads, whose order is free: what all orders have in common is compared."""
    two_branches(camp)
    script = crowd(8, 50, False)
    calls = [it for it in script.decode().splitlines() if it != "client"]
    for flags in (["--history", "--tries", "1000"], ["--history", "--serial"]):
        every_call_once(camp, script, calls, flags)
    lost_calls(camp, script)


def two_branches(camp):
    """Two clients that write different branches are numbered in either order."""
    script = b"branch x main\nbranch y main\nclient\nrecord x a add f\nclient\nrecord y b add g\n"
    done = camp.run(script)
    first, second = (4, 3) if done.stdout.split(b"\n")[3:4] == [b"ok 4"] else (3, 4)
    camp.expect("two branches", done, b"ok 1\nok 2\nclient 1\nok %d\nclient 2\nok %d\n" % (first, second))


def every_call_once(camp, script, calls, flags):
    """No call is busy where it may lose more often than there are calls; the answers and the history have each number once, and
    the history has each call with its seat."""
    done = camp.run(script, flags)
    answers, _, history = done.stdout.decode().partition("history 408\n")
    rows = [it.split(" ", 2) for it in history.splitlines()]
    seats = {it: "0" if it.startswith("branch") else it.split()[1][1:] for it in calls}
    numbers = sorted(str(it) for it in range(1, 409))
    what = " ".join(["eight clients", *flags])
    camp.report.expect(f"{what}: numbers", sorted(re.findall(r"^ok (\d+)$", answers, re.M)), numbers)
    camp.report.expect(f"{what}: positions", sorted(it[0] for it in rows), numbers)
    camp.report.expect(f"{what}: history", sorted((it[2], it[1]) for it in rows), sorted(seats.items()))
    camp.report.expect(f"{what}: clients", re.findall(r"^client (\d+)$", answers, re.M), [str(it) for it in range(1, 9)])
    camp.report.expect(f"{what}: end", (done.stderr, done.returncode), (b"", 0))
    camp.report.count("runs")


def lost_calls(camp, script):
    """Where a call may lose once, each answer is ok or busy, and the history has as many calls as there are oks."""
    done = camp.run(script, ["--history", "--tries", "1"])
    answers, _, history = done.stdout.decode().partition("history ")
    lines = [it for it in answers.splitlines() if not it.startswith("client ")]
    kinds = collections.Counter(re.sub(r"^ok \d+$", "ok", it) for it in lines)
    camp.report.expect("one try: answers", set(kinds) | {"busy 1"}, {"ok", "busy 1"})
    camp.report.expect("one try: their number", sum(kinds.values()), 408)
    camp.report.expect("one try: history", history.split("\n", 1)[0], str(kinds["ok"]))
    camp.report.expect("one try: end", (done.stderr, done.returncode), (b"", 0))
    camp.report.count("runs")
