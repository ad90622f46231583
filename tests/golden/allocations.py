"""An operation makes as many allocations as crates/worked/allocations says, on a small value and on a large one; or takes a time like its size.

What two tables allocate, one without the operation and one with it, differs by what it allocates. A row `grows` has two sizes and the
lines of a table: its time grows with the size, give or take a factor of two.
"""

import re

from tests.harness import programs
from tests.harness.paths import WORKED, read_text
from tests.harness.refusals import can_refuse, counted, is_failing

SECONDS, GATE = 15, "after worked"
# The allocation that fails in a program of mutants/test.
REFUSED = 4_000

GROWS = re.compile(r"^grows (\d+) (\d+) \| (.*)\n", re.M)


def rows_of(text):
    """The rows: the title of each, how much more the second of two tables allocates, and these tables. Each is one line after those that
    stand before both, for a value of a size."""
    before, sizes = [], []
    for line in text.splitlines():
        if line.startswith("sizes "):
            before, sizes = [], line.split()[1:]
        elif line.startswith("< "):
            before.append(line[2:])
        elif line and not line.startswith("#"):
            counts, *pair = line.split(" | ")
            assert len(counts.split()) == len(sizes), line
            for size, count in zip(map(int, sizes), counts.split()):
                texts = [filled("\n".join([*before, it, ""]), size) for it in pair]
                # A comment makes both equally long, so that they are read into as much memory.
                length = max(map(len, texts))
                yield f"{pair[1]} of {size}", int(count), [b"table x\n#" + b"." * (length - len(it)) + b"\n" + it for it in texts]


def filled(text, size):
    """The text with what its words in capitals mean for a size."""
    name = lambda at: f"f{1_000_000 + at}"
    words = {
        "RECORDS": "\n".join(f"0 record main {name(at)} add {name(at)}" for at in range(size)),
        "FILES": ", ".join(f"{name(at)}: []" for at in range(size)),
        "LINES": ", ".join(["line"] * size),
        "CHAIN": ", ".join(f"c{at} f 1 [l{at}] -> [l{at + 1}]" for at in range(size)),
        "FILE": name(size // 2),
        "LAST": name(size - 1),
        "HALF": str(size // 2),
        "NEXT": str(size // 2 + 1),
        "BEHIND": str(size + 1),
        "SIZE": str(size),
    }
    for word, meaning in words.items():
        text = text.replace(word, meaning)
    return text.encode()


def run_of(program, table):
    """What a table is answered at its end, and how many allocations were made. A program that was built without proofs so that one of them
    fails counts from there: it tells how many it can still make."""
    if not is_failing(program):
        done, count = counted([program], table)
        return done.stdout.decode(errors="replace").splitlines()[-1] if done.returncode == 0 else None, count
    *_, answer, left = programs.run([program, str(REFUSED)], table).stdout.decode(errors="replace").splitlines()
    return answer, -int(left.split()[1])


def count_of(program, tables):
    """How much more the second line allocates, where it does something; else its answer."""
    (before, without), (answer, count) = (run_of(program, it) for it in tables)
    is_done = before and answer and answer.startswith(("= made", "ok ", "refused 4", "accepted "))
    return count - without if is_done else answer


def run(report, words):
    text = read_text(f"{WORKED}/allocations")
    program = programs.path("worked")
    if not can_refuse(report, program):
        return
    for (title, wanted, _), count in programs.each(lambda it: count_of(program, it[2]), rows_of(GROWS.sub("", text))):
        report.expect(title, count, wanted)
        report.count("operations")
    for small, large, lines in GROWS.findall(text):
        table = "table x\nquiet\n" + lines.replace("; ", "\n") + "\n"
        is_well = programs.is_in_proportion(lambda size: programs.run([program], filled(table, size)), int(small), int(large))
        report.expect(f"{lines}: the time at {large} is in proportion to that at {small}", is_well, True)
        report.count("times")
