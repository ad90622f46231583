"""camp ends with status 3 and no half answer where its input, its output or memory fails.

Words: ends, memory name parts; spaces: some 600 address spaces of each script, a page apart.
"""

import resource

from tests.harness import programs, sessions
from tests.harness.camp import Program
from tests.harness.paths import EXAMPLES, read

SECONDS, GATE = 8, "after camp"
WAYS = ("--serial", "--tries=1000")
# Address spaces in KiB, from one in which no script is answered to one with room for threads.
SIZES = (8000, 10000, 12000, 14000, 16000, 20000, 24000, 32000, 64000, 1000000)
PAGE = resource.getpagesize() // 1024
# So many pages below the least size that is enough, and some above it; then sizes so many KiB apart, up to the last.
BELOW, ABOVE, APART, LAST = 200, 20, 256, 100_000


def run(report, words):
    camp = Program(report, "camp")
    parts = {"ends": lambda camp: sessions.play_all(camp, "ends", "failing ends"), "memory": memory, "spaces": spaces}
    for name in words or ("ends", "memory"):
        if name == "ends" or camp.has_spaces():
            parts[name](camp)


def memory(camp):
    """Address spaces that are too small: no answer and status 3, or all of them."""
    comments = b"# comment\n" * 2_000_000
    too_small(camp, "the input", comments, 16000, b"")
    script = b"record main a add f\nrecord main b edit f 1\n" + b"+a line of text\n" * 60_000 + b"end\n" + b"tree main\n" * 50
    too_small(camp, "the answers", script, 40000, b"ok 1\nok 2\n" + (b"tree 1\nfile f 60000\n" + b"=a line of text\n" * 60_000) * 50)
    for name in ("readme", "clients"):
        for flag in WAYS:
            try_sizes(camp, name, read(f"{EXAMPLES}/{name}.camp"), flag, SIZES)


def too_small(camp, what, script, size, answers):
    words = programs.limited([camp.program], v=size)
    camp.expect(f"an address space too small for {what}", programs.run(words, script), b"", "out of memory", 3)
    camp.expect(f"room for {what}", camp.run(script), answers)


def spaces(camp):
    """Sizes near the least one that is enough, for three scripts."""
    for name, script in [*((it, read(f"{EXAMPLES}/{it}.camp")) for it in ("readme", "clients")), ("long", long_script())]:
        for flag in WAYS:
            try_sizes(camp, name, script, flag, sizes_of(lambda size: answer(camp, script, flag, size)[0] == 0))


def try_sizes(camp, name, script, flag, sizes):
    """All answers are given, or none with status 3 and one line of error."""
    ample, begun = answer(camp, script, flag, 1_000_000)[1], False
    for size, (status, lines, error) in programs.each(lambda size: answer(camp, script, flag, size), sizes):
        # Below some size the program is not even loaded.
        begun = begun or status in (0, 3) or sizes == SIZES
        if begun or lines:
            wanted = (0, ample, b"") if status == 0 else (3, [], b"camp: out of memory\n")
            camp.report.expect(f"{size} KiB, {name} {flag}", (status, lines, error), wanted)
        camp.report.count("address spaces" if begun else "address spaces that are too small to begin")


def answer(camp, script, flag, size):
    """The status, the answers, and the error. The answers are sorted: only the numbers after ok depend on the order of threads."""
    done = programs.run(programs.limited([camp.program, flag], v=size), script)
    return done.returncode, sorted(done.stdout.splitlines()), done.stderr


def long_script():
    """Two branches that edit lines of one file, some of them in conflict; a client pulls one of them, another asks."""
    lines = ["record main a add f", "record main b edit f 1", *(f"+{at}" for at in range(200)), "end", "branch x main"]
    for at in range(1, 200, 4):
        for branch, new in (("main", "m"), ("x", "x")):
            line = at if branch == "main" or at % 3 else at + 2
            lines += [f"record {branch} {new}{at} edit f {line}", f"-{line - 1}", f"+{new}{line}", "end"]
    lines += ["client", "pull x main", "tree main", "client", "conflicts x", "tree x"]
    return "".join(line + "\n" for line in lines).encode()


def sizes_of(is_enough):
    """The sizes that are tried, round the fewest pages that are enough, as far as halving tells."""
    low, high = 0, 1
    while not is_enough(high * PAGE):
        low, high = high, 2 * high
    while high - low > 1:
        middle = (low + high) // 2
        low, high = (low, middle) if is_enough(middle * PAGE) else (middle, high)
    near = [it * PAGE for it in range(max(1, high - BELOW), high + ABOVE)]
    return [*near, *range(near[-1] + APART, LAST, APART)]
