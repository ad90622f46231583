"""Reads what a check prints: the verdict on each function, and each error with its place."""

import os
import re

from tests.harness.mutants import function_at

# A function that calls what is not proved has no proof either, which says nothing of it.
VERDICT = re.compile(r"^fn (\S+): (not proved|proved|no proof: expected|no proof)", re.M)
# An error, or a clause that is not proved, with its file and line.
ERROR = re.compile(r"^(?:note: )?(?:\./)?(\S+?):(\d+):\d+:.*")
# A goal that is not proved, and the end of its name where it is that of a clause.
GOAL = re.compile(r"^note: .*not proved that.*")
OF_CLAUSE = re.compile(r"-clause-(\w+)`\)")


def errors_in(printed):
    """The errors that a check prints, each with its file and line."""
    return [it for it in map(ERROR.match, printed.splitlines()) if it and ": error" in it[0]]


def functions_of(path):
    """The function that a check names: the one in which it is, where it is a closure."""
    parts = re.split(r"::|\+", path)
    return parts[parts.index("fn") + 1 :] if "fn" in parts else parts[-1:]


def functions_with(printed, verdict):
    return {name for path, found in VERDICT.findall(printed) if found == verdict for name in functions_of(path)}


def function_of(error, texts):
    """The function that an error is about: of the source by its line, of a proof by its folder."""
    if error[1] in texts:
        return function_at(texts[error[1]], int(error[2]))
    return os.path.basename(os.path.dirname(error[1]))
