"""What `python3 -m camp graph` draws: legend, paths, tooltips, conflicts, what is left out, and clusters of great branches.

Words: none. Great branches are answers that are made here. Graphviz draws each picture where it is installed.
"""

import os
import re
import shutil
import sys
import tempfile

from tests.harness import programs
from tests.harness.paths import DATA, TOP, read_text, write_text

SECONDS, GATE = 10, "after camp_shell"
# The width and height in points that the picture of a history of so many patches has at most, and that of many small parts.
SIZES = {5: (500, 400), 30: (900, 700), 200: (3300, 1400), 1000: (1900, 1300)}
PARTS = (1300, 1100)
SCRIPT = """record main start group
add menu
edit menu 1
+soup
+bread
end
done
branch work main
record main french edit menu 1
-soup
+potage
end
record work german edit menu 1
-soup
+Suppe
end
record main rolls edit menu 2
-bread
+rolls
end
record work rye edit menu 2
-bread
+rye
end
pull work main
record main cheese add cheese
record main decided edit menu 2
-bread
+rye rolls
end
"""


class Answers:
    """A branch of patches by their needs and paths, and the pairs in conflict, that answers what a picture asks."""

    def __init__(self, needs, paths, conflicts=(), unresolved=()):
        self.needs, self.paths, self.conflicts, self.unresolved = needs, paths, conflicts, unresolved

    def ask(self, request):
        return "".join(self.answer(line.split(" ")) for line in request.decode().splitlines()).encode()

    def answer(self, words):
        if words[0] in ("show", "side"):
            return f"{words[0]} 1\nadd {self.paths[words[2]]}\n"
        pairs = {"conflicts": self.conflicts, "open": self.unresolved}.get(words[0])
        if pairs is not None:
            lines = [f"{one} {other}" for one, other in pairs]
        elif words[0] == "graph":
            lines = [line for name, on in self.needs.items() for line in (f'  "{name}";', *(f'  "{name}" -> "{it}";' for it in on))]
        else:
            lines = [it for it in self.needs if it in words[2:] or any(it in self.needs[name] for name in words[2:])]
        return "".join(f"{it}\n" for it in (f"{words[0]} {len(lines)}", *lines))


def fan():
    """What 50 patches need, two of which are in conflict."""
    needs = {"start": [], **{f"item-{at}": ["start"] for at in range(50)}}
    return Answers(needs, dict.fromkeys(needs, "list"), [("item-3", "item-4")], [("item-3", "item-4")])


def history(count):
    """As many patches as one would write in some weeks: most need the last one of their file, every seventh one more, and every
    twentieth is in conflict with the one before it. Every second of these conflicts is unresolved."""
    names = [f"{('fix', 'parse', 'tidy', 'rename')[at % 4]}-{at}" for at in range(count)]
    paths = {name: f"src/{('list', 'menu', 'page')[at * at % 3]}{at * 7 % 11}.c" for at, name in enumerate(names)}
    last, needs = {}, {}
    for at, name in enumerate(names):
        needs[name] = [last[paths[name]]] if paths[name] in last else []
        needs[name] += [names[at // 2]] if at % 7 == 6 and names[at // 2] not in needs[name] else []
        last[paths[name]] = name
    pairs = [tuple(sorted((names[at - 1], names[at]))) for at in range(19, count, 20)]
    return Answers(needs, paths, pairs, pairs[::2])


def parts():
    """200 patches of 40 files: of each file five, two of which need the first one, and each time two of two files are in conflict."""
    names = [f"p{at}" for at in range(200)]
    needs = {name: [names[at // 5 * 5]] if at % 5 in (1, 2) else [] for at, name in enumerate(names)}
    pairs = [(names[at], names[at + 1]) for at in range(4, 200, 10)]
    return Answers(needs, {name: f"src/file{at // 5}" for at, name in enumerate(names)}, pairs, pairs)


def great():
    """1,000 patches of 20 files: 50 conflicts of two, one of which is unresolved, and one of 20."""
    names = [f"p{at}" for at in range(1000)]
    needs = {name: [names[at - 20]] if at >= 20 else [] for at, name in enumerate(names)}
    paths = {name: f"src/file{at % 20}" for at, name in enumerate(names)}
    pairs = [(names[at], names[at + 1]) for at in range(100, 600, 10)]
    chain = [(names[at], names[at + 1]) for at in range(700, 719)]
    return Answers(needs, paths, pairs + chain, pairs[-1:])


def run(report, words):
    sys.path.insert(0, f"{TOP}/clients/python")
    from camp.pictures import picture

    with tempfile.TemporaryDirectory(prefix="pictures-") as folder:
        write_text(f"{folder}/script", SCRIPT)
        environment = {**os.environ, "PYTHONPATH": f"{TOP}/clients/python", "PYTHONDONTWRITEBYTECODE": "1", "CAMP_SHELL": programs.path("camp_shell")}
        command = [sys.executable, "-m", "camp", "graph", "main"]
        for part, more in (("main", []), ("main open", ["--open"]), ("main cheese", ["cheese"])):
            done = programs.run([*command, *more, "--load", f"{folder}/script"], env=environment)
            report.expect_run(part, done, golden_of(part).encode())
            drawn(report, part, done.stdout.decode(), folder)
        for more, status, error in ((["none"], 1, b"camp: the branch has no patch none\n"), (["--store", folder], 3, None)):
            done = programs.run([*command, *more], env=environment)
            report.expect(f"graph {more}", (done.stdout, done.returncode, error is None or done.stderr == error), (b"", status, True))
    with tempfile.TemporaryDirectory(prefix="pictures-") as folder:
        for count, size in SIZES.items():
            drawn(report, f"history of {count}", picture(history(count).ask, "main"), folder, size)
        drawn(report, "parts", picture(parts().ask, "main"), folder, PARTS)
        of_fan(report, picture(fan().ask, "main"), folder)
        of_great(report, picture(great().ask, "main"), folder)
        only_open = picture(great().ask, "main", (), True)
        report.expect("unresolved conflicts of a great branch, with all that they need", len(re.findall(r'^  "p\d+" \[', only_open, re.M)), 60)
        drawn(report, "open", only_open, folder)


def golden_of(part):
    """The picture that tests/data/pictures has of a part."""
    return re.search(rf"^== {part}\n(.*?)(?=^== |\Z)", read_text(f"{DATA}/pictures"), re.M | re.S)[1]


def of_fan(report, dot, folder):
    """What nearly all need has no arrows but one, and says how many need it."""
    report.expect("arrows of a fan", re.findall(r"^  (.* -> .*);$", dot, re.M)[:1], ['"folded start" -> "start"'])
    for text in ("needed by 50: no arrows", "48 patches that need start", "no arrows: more than 12 need it directly", 'tooltip="item-3; changes list; needs start; in an unresolved conflict"'):
        report.expect(f"a fan has: {text}", text in dot, True)
    drawn(report, "fan", dot, folder)


def of_great(report, dot, folder):
    """A great branch shows conflicts as clusters, the unresolved one first, and counts other patches by file."""
    titles = re.findall(r'subgraph cluster_\d+ {\n    label="(\w+): ', dot)
    report.expect("clusters", (titles[:1], set(titles[1:]), len(titles)), (["unresolved"], {"resolved"}, 40))
    for text in ("11 clusters of resolved conflicts", "8 other files", ">src/file2<", "920 patches more", "folder: all others, without arrows"):
        report.expect(f"a great branch has: {text}", text in dot, True)
    report.expect("its patches are not all there", len(dot.splitlines()) < 400, True)
    heights = drawn(report, "great", dot, folder, SIZES[1000])
    if heights:
        lowest = min(heights[it] for it in ("p590", "p591"))
        report.expect("what is above the unresolved conflict", [it for it in heights if heights[it] > lowest], ["a legend"])


def drawn(report, name, dot, folder, size=None):
    """Graphviz draws it without a warning, in a picture of at most this size in points. Returns how high each node stands."""
    report.count("pictures")
    if not shutil.which("dot"):
        return report.skip("Graphviz") or {}
    done = programs.run(["dot", "-Tsvg", "-o", f"{folder}/{name}.svg"], dot.encode())
    report.expect_run(f"{name}: dot", done, b"")
    svg = read_text(f"{folder}/{name}.svg")
    report.expect(f"{name}: legend and tooltips in SVG", ("arrow: to what a patch needs" in svg, "xlink:title=" in svg), (True, True))
    found = [int(it) for it in re.search(r'<svg width="(\d+)pt" height="(\d+)pt"', svg).groups()]
    if size and not all(one <= most for one, most in zip(found, size)):
        report.fail(f"{name}: {found} points in place of at most {size}")
    plain = programs.run(["dot", "-Tplain"], dot.encode()).stdout.decode()
    return {one or other: float(height) for one, other, height in re.findall(r'^node (?:"([^"]*)"|(\S+)) \S+ (\S+)', plain, re.M)}
