"""The crates hand out the calls that were settled before they were written, but for the differences that are named.

The file surface of tests/data has those calls. Read from the sources are the functions that a crate's lib.rt hands out, the
methods of the types that it hands out, and those of its traits. Left out are laws, which take nothing and answer nothing, and
what a trait of the standard library asks for. A difference is a call that is missing, one with other types, or one beyond
those that were settled. Each has to be named: in docs/DECISIONS.md, in the section `Public surface`, between backticks, or,
if it is a call beyond them, in the file added_calls of tests/data. Nothing else may be named there.

Words: all prints each difference.
"""

import glob
import re

from tests.harness.paths import DATA, TOP, read_text

SECONDS, GATE = 1, "beside"
SECTION = "## Public surface"
BEYOND = "is beyond what was settled"
# What a caller sees under another name, or does not see.
LIFETIME = re.compile(r"'\w+\s*,?\s*")
HIDDEN = [
    (re.compile(r"<State>|<State, Reply>|<R, State, G>|<R>|<'_>|<\s*>"), ""),
    (re.compile(r"State::(Call|Reply)"), r"\1"),
    (re.compile(r"&mut |&|mut "), ""),
    (re.compile(r"Result<(.*), Alloc(?:Error|Failed<.*>)>$"), r"\1"),
]
ITEM = re.compile(
    r"^(?P<impl>impl\b[^{;]*)\{|^(?:pub )?trait (?P<trait>\w+)[^{;]*\{|^(?P<end>\})"
    r"|^(?P<indent> *)(?P<public>pub )?(?:const )?fn (?P<name>\w+)(?P<rest>[<(])",
    re.M,
)


def closing(text, at):
    """The place of the bracket that closes the one at a place; `->` closes none."""
    depth = 0
    for place in range(at, len(text)):
        if text[place] in "(<[{":
            depth += 1
        elif text[place] in ")>]}" and text[place - 1 : place + 1] not in ("->", "=>"):
            depth -= 1
            if depth == 0:
                return place
    raise ValueError("a bracket is not closed")


def parts_of(text):
    """The parts of a list between commas."""
    parts, depth, last = [], 0, 0
    for place, sign in enumerate(text):
        depth += (sign in "(<[{") - (sign in ")>]}" and text[place - 1 : place + 1] != "->")
        if sign == "," and depth == 0:
            parts.append(text[last:place])
            last = place + 1
    return [it.strip() for it in [*parts, text[last:]] if it.strip()]


def plain(kind):
    """A type as the caller sees it."""
    kind = LIFETIME.sub("", " ".join(kind.split()))
    for pattern, new in HIDDEN:
        kind = pattern.sub(new, kind)
    return kind.strip() or "()"


def taken(parameter):
    """The type of a parameter; None for the allocator and the runtime."""
    if parameter.endswith("self"):
        return " ".join(LIFETIME.sub("", parameter).split()).replace("mut self", "&mut self" if "&" in parameter else "self").replace("&&", "&")
    name, kind = (it.strip() for it in parameter.split(":", 1))
    return None if name in ("alloc", "rt") else plain(kind)


def call_at(source, found, owner):
    """The name of a function with its owner, and its types."""
    start = found.end() - 1
    if source[start] == "<":
        start = source.index("(", closing(source, start))
    end = closing(source, start)
    answer = re.match(r"\s*->\s*([^{;]*?)(?=\s*(?:where\b|requires\b|ensures\b|\{|;))", source[end + 1 :])
    takes = [it for it in map(taken, parts_of(source[start + 1 : end])) if it]
    name = f"{owner}::{found['name']}" if owner else found["name"]
    return name, f"({', '.join(takes)}) -> {plain(answer[1]) if answer else '()'}"


def owner_of(head):
    """The type whose methods an impl has; None for those of a trait."""
    head = " ".join(head.split())
    head = head[closing(head, 4) + 1 :] if head[4:5] == "<" else head[4:]
    return None if " for " in head else re.match(r"\s*(\w+)", head)[1]


def calls_of(path):
    source = re.sub(r"^ *//.*$", "", read_text(path), flags=re.M)
    owner, in_trait, skipped = "", False, False
    for found in ITEM.finditer(source):
        if found["impl"]:
            owner, in_trait = owner_of(found["impl"]) or "", False
            skipped = not owner
        elif found["trait"]:
            owner, in_trait, skipped = found["trait"], True, False
        elif found["end"]:
            owner, in_trait, skipped = "", False, False
        elif not skipped and (found["public"] or in_trait):
            yield call_at(source, found, owner if found["indent"] else "")


def handed_out(crate):
    """The names that a crate's lib.rt hands out, and those that it takes from crates below."""
    source = read_text(f"{TOP}/crates/{crate}/src/lib.rt")
    names = set(re.findall(r"^pub (?:type|struct|enum|trait|fn) (\w+)", source, re.M))
    for uses in re.findall(r"^pub use ([^;]+);", source, re.M):
        names |= set(re.findall(r"\w+", uses.split("::", 1)[1]))
    return names


def written(crates):
    """The calls that some crates hand out, but for laws."""
    calls = {}
    for crate in crates:
        names = handed_out(crate)
        for path in sorted(glob.glob(f"{TOP}/crates/{crate}/src/**/*.rt", recursive=True)):
            for name, types in calls_of(path):
                if name.split("::")[0] in names and types != "() -> ()":
                    calls[name] = types
    return calls


def settled():
    """The crates and the calls of each part of the list."""
    lines = [line for line in read_text(f"{DATA}/surface").splitlines() if line and not line.startswith("#")]
    parts = []
    for line in lines:
        if line.startswith("="):
            parts.append((line[1:].split(), {}))
        else:
            name, types = line.split("(", 1)
            parts[-1][1][name] = f"({types}"
    return parts


def differences():
    """The differences, each with its name."""
    for crates, calls in settled():
        found = written(crates)
        for name, types in calls.items():
            if name not in found:
                yield name, f"{crates[0]}: {name} is missing: {types}"
            elif found[name] != types:
                yield name, f"{crates[0]}: {name}{found[name]}, settled as {types}"
        for name in sorted(set(found) - set(calls)):
            yield name, f"{crates[0]}: {name}{found[name]} {BEYOND}"


def named():
    """What the section of docs/DECISIONS.md names, but for files."""
    _, _, section = read_text(f"{TOP}/docs/DECISIONS.md").partition(f"\n{SECTION}\n")
    section = section.partition("\n## ")[0]
    return {it for it in re.findall(r"`([^`]+)`", re.sub(r"\([^()]*\)", "", section)) if "/" not in it}


def added():
    """The calls of the file added_calls."""
    return {line for line in read_text(f"{DATA}/added_calls").splitlines() if line and line[0] not in "#="}


def run(report, words):
    found, changed, beyond = dict(differences()), named(), added()
    for name, text in found.items():
        if "all" in words:
            report.note(text)
        if name not in changed | (beyond if text.endswith(BEYOND) else set()):
            report.fail(f"neither docs/DECISIONS.md nor tests/data/added_calls names {name}: {text}")
    for name in sorted((changed | beyond) - set(found)):
        report.fail(f"{name} is named, and is no difference")
    report.count("calls settled", sum(len(calls) for _, calls in settled()))
    report.count("differences", len(found))
