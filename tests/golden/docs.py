"""The sessions of the documents write what the page shows; each link leads to a file and a heading; pictures are as drawn.

Words: pages; none: README.md, docs/ and the READMEs of examples/, clients/ and crates/, and the pictures of docs/pictures/*.py.
A session is a fenced block of one of two kinds:

```console   Each line `$ COMMAND` is a command for bash; the lines below it, up to the next one, are what it writes to
             standard output and standard error. A command goes on over a `\\` at its end, and over a here-document. A line
             that is just `...` stands for any lines. All blocks of a page are one session of bash, which starts at
             the top of the repository; files that it makes land in a temporary folder.

```camp      Commands of `camp_shell`; the lines that begin with `#` are its answers. (It skips such lines as comments, so
             that a whole block can be pasted.) All blocks of a page are one conversation. An answer `ok NUMBER`
             may be left out. A block "```camp new" starts another conversation.
"""

import glob
import os
import re
import subprocess
import sys
import tempfile

from tests.harness import programs
from tests.harness.paths import TOP, read_text
from tests.harness.terminal import is_match

SECONDS, GATE = 20, "after camp camp_shell"
BLOCK = re.compile(r"^```(console|camp)( new)?\n(.*?)^```$", re.M | re.S)
ANY_BLOCK = re.compile(r"^```.*?^```$", re.M | re.S)
MARK = "== end of command "


def commands_of(block):
    """The commands of a console block, each with the lines that it writes."""
    before, *parts = re.split(r"^\$ ", block, flags=re.M)
    assert not before, f"output before the first command: {before}"
    for part in parts:
        command, *lines = part.splitlines()
        while command.endswith("\\"):
            command += "\n" + lines.pop(0)
        word = re.search(r"<<-?'?(\w+)'?", command)
        end = lines.index(word[1]) + 1 if word else 0
        yield "\n".join([command, *lines[:end]]), lines[end:]


def run_console(commands, path):
    """Runs commands in one bash, in a folder with links to the top of the repository. Yields the lines of each."""
    with tempfile.TemporaryDirectory(prefix="docs-") as folder:
        for entry in os.listdir(TOP):
            if entry != ".git":
                os.symlink(f"{TOP}/{entry}", f"{folder}/{entry}")
        script = "".join(f"{command}\necho '{MARK}{at}'\n" for at, (command, _) in enumerate(commands))
        how = {"text": True, "errors": "replace", "stderr": subprocess.STDOUT, "cwd": folder, "env": {**os.environ, "PATH": path}}
        done = programs.run(["bash"], script, **how)
    at, lines = 0, []
    for line in done.stdout.splitlines():
        if line == f"{MARK}{at}":
            yield lines
            at, lines = at + 1, []
        else:
            lines.append(line)


def check_console(report, page, blocks, path):
    commands = [it for block in blocks for it in commands_of(block)]
    results = list(run_console(commands, path))
    for (command, wanted), lines in zip(commands, results):
        if not is_match(wanted, lines):
            differ(report, page, command, wanted, lines)
    report.expect(f"{page}: commands that came to their end", len(results), len(commands))


def check_conversation(report, page, text, shell):
    """Compares the answers of a conversation with those that a page shows; `ok NUMBER` may be left out there."""
    lines = [it for it in text.splitlines() if it]
    commands = [it for it in lines if not it.startswith("#")]
    wanted = [it[2:] for it in lines if it.startswith("#")]
    how = {"text": True, "errors": "replace", "stderr": subprocess.STDOUT}
    for line in programs.run([shell], "".join(f"{it}\n" for it in commands), **how).stdout.splitlines():
        if wanted and wanted[0] == line:
            wanted.pop(0)
        elif not re.fullmatch(r"ok \d+", line):
            return differ(report, page, "an answer", wanted[:3], [line])
    if wanted:
        differ(report, page, "the end of the conversation", wanted[:3], [])


def differ(report, page, what, wanted, lines):
    report.fail("\n    ".join([f"{page}: {what}", *(f"- {it}" for it in wanted[:12]), *(f"+ {it}" for it in lines[:12])]))


def prose(page):
    """The text of a page without its blocks."""
    return ANY_BLOCK.sub("", read_text(page))


def anchors(page):
    """The anchors of a page's headings."""
    for heading in re.findall(r"^#+ (.*)$", prose(page), re.M):
        text = re.sub(r"\[([^]]*)\]\([^)]*\)", r"\1", heading).lower().strip()
        yield re.sub(r"[^\w\- ]", "", text).replace(" ", "-")


def check_links(report, page):
    """Each link of a page leads to a file, and to a heading of it."""
    for link in re.findall(r"\]\(([^)\s]+)\)", prose(page)):
        path, _, anchor = link.partition("#")
        target = os.path.normpath(os.path.join(os.path.dirname(page), path)) if path else page
        is_outside = re.match(r"https?:", link)
        if not is_outside and (not os.path.exists(target) or (anchor and target.endswith(".md") and anchor not in anchors(target))):
            report.fail(f"{page}: the link {link} leads nowhere")


def check_page(report, page, shell, path):
    found = BLOCK.findall(read_text(page))
    consoles, conversations = [text for kind, _, text in found if kind == "console"], []
    for _, new, text in (it for it in found if it[0] == "camp"):
        if new or not conversations:
            conversations.append("")
        conversations[-1] += text
    if consoles:
        check_console(report, page, consoles, path)
    for it in conversations:
        check_conversation(report, page, it, shell)
    report.count("blocks", len(found))
    report.count("pages")


def run(report, words):
    shell, camp = programs.path("camp_shell"), programs.path("camp")
    folders = ("*", "docs/*", "examples/*", "clients/**/*", "crates/*/README")
    pages = words or sorted({it for folder in folders for it in glob.glob(f"{folder}.md", recursive=True)})
    for page in pages:
        check_links(report, page)
    for script in [] if words else sorted(glob.glob("docs/pictures/*.py")):
        report.expect(script, programs.run([sys.executable, script, "--check"]).returncode, 0)
    with tempfile.TemporaryDirectory(prefix="docs-bin-") as folder:
        for name, target in (("camp_shell", shell), ("camp", camp)):
            os.symlink(target, f"{folder}/{name}")
        for page in pages:
            check_page(report, page, shell, f"{folder}:{os.environ['PATH']}")
