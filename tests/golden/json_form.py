"""Each golden answer becomes JSON and the same answer again; docs/tools.md has an object of each form, and `shell --json` writes them.

Words: none.
"""

import io
import json
import os
import re
import sys
import tempfile

from tests.harness import golden, programs
from tests.harness.paths import EXAMPLES, TOP, read, read_text

SECONDS, GATE = 10, "after camp_shell"
# Answers of scripts that are no answers of a conversation: where a script has a fault, standard error has it.
FAULT = b"!"
WRONG = {
    "an object of nothing": ("{}", "line 1: no response: it has no 'answer'"),
    "no JSON": ("names", "line 1: Expecting value: line 1 column 1 (char 0)"),
    "a line with two lines": ('{"answer": "keep", "lines": ["a\\nb"]}', "line 1: more than one line: b'a\\nb'"),
    "no base64": ('{"answer": "keep", "lines": [{"base64": "?"}]}', "line 1: ..."),
    "the second line": ('{"answer": "ok", "number": 1}\n[]', "line 2: no response: a value of another kind is wanted"),
}


def run(report, words):
    sys.path.insert(0, f"{TOP}/clients/python")
    from camp.json_form import from_json, next_response, to_json

    # Each response is tried once: many cases have the same thousands.
    shapes, seen = {}, set()
    for title, text in goldens():
        source, rest = io.BytesIO(text), bytearray()
        for response in iter(lambda: next_response(source.readline), b""):
            rest += response
            if response in seen:
                continue
            seen.add(response)
            made = to_json(response)
            if from_json(made) != response:
                report.fail(f"{title}: {response[:200]!r} became {made[:200]}")
            found = json.loads(made)
            shapes.setdefault(found["answer"], set()).add(tuple(found))
            report.count("answers")
        report.expect(title, bytes(rest), text)
    documented(report, shapes, from_json, to_json)
    with tempfile.TemporaryDirectory(prefix="json-") as folder:
        environment = {**os.environ, "PYTHONPATH": f"{TOP}/clients/python", "PYTHONDONTWRITEBYTECODE": "1", "CAMP_SHELL": programs.path("camp_shell")}
        over_a_program(report, environment, folder)
        refused(report, environment)


def goldens():
    """The answers that tests/data and examples/ have."""
    for name in ("answers", "conversations", "limits", "long_lines"):
        for title, _, _, wanted in golden.cases(name):
            if not wanted.startswith(FAULT):
                yield f"{name}: {title}", wanted
    for name in sorted(os.listdir(EXAMPLES)):
        if name.endswith(".stdout"):
            yield name, read(f"{EXAMPLES}/{name}")


def documented(report, shapes, from_json, to_json):
    """Each object of the page is a response, and each form that was met is on the page."""
    (block,) = re.findall(r"^```json\n(.*?)^```$", read_text(f"{TOP}/docs/tools.md"), re.M | re.S)
    shown = {}
    for line in block.splitlines():
        report.expect(f"docs/tools.md: {line}", to_json(from_json(line)), line)
        found = json.loads(line)
        shown.setdefault(found["answer"], set()).add(tuple(found))
        report.count("objects")
    unknown = {word: forms - shown.get(word, set()) for word, forms in shapes.items()}
    report.expect("forms that docs/tools.md lacks", {word: forms for word, forms in unknown.items() if forms}, {})


def over_a_program(report, environment, folder):
    """A conversation in JSON, also over a store and over loaded files, and turned back: the answers of camp_shell."""
    commands, wanted = read(f"{EXAMPLES}/questions.talk"), read(f"{EXAMPLES}/questions.talk.stdout")
    camp = [sys.executable, "-m", "camp"]
    with open(f"{folder}/first", "wb") as file:
        file.write(b"record main early add early\n")
    for options in ([], ["--store", f"{folder}/kept"]):
        done = programs.run([*camp, "shell", "--json", *options], commands, env=environment)
        back = programs.run([*camp, "json", "--back"], done.stdout, env=environment)
        report.expect_run(f"shell --json {' '.join(options[:1])}", back, wanted)
        report.expect("shell --json: standard error and status", (done.stderr, done.returncode), (b"", 0))
        report.expect("json", programs.run([*camp, "json"], wanted, env=environment).stdout, done.stdout)
        report.count("conversations")
    done = programs.run([*camp, "shell", "--json", "--load", f"{folder}/first"], b"names main\n", env=environment)
    report.expect_run("--load", done, b'{"answer": "names", "names": ["early"]}\n')
    done = programs.run([*camp, "shell", "--json", "--load", f"{folder}/first", f"{folder}/first"], b"", env=environment)
    report.expect("--load of what is refused", (done.stdout, b"refused 6 early" in done.stderr, done.returncode), (b"", True, 1))


def refused(report, environment):
    """What is no JSON of a response, or is cut, is said with its line."""
    for title, (text, error) in WRONG.items():
        done = programs.run([sys.executable, "-m", "camp", "json", "--back"], text.encode() + b"\n", env=environment)
        said = done.stderr.decode()
        right = said.startswith("camp: " + error[:-3]) if error.endswith("...") else said == f"camp: {error}\n"
        report.expect(title, (right or said, done.returncode), (True, 1))
        report.count("refused inputs")
    for text in (b"names 2\na\n", b"names", b"hello world\n"):
        done = programs.run([sys.executable, "-m", "camp", "json"], text, env=environment)
        report.expect(repr(text), (done.stdout, done.returncode, done.stderr.startswith(b"camp: ")), (b"", 1, True))
        report.count("refused inputs")
