"""What a call changes about unresolved conflicts: the pairs of a branch before and after it, as lines for a person."""

from __future__ import annotations

from typing import Callable, Dict, FrozenSet, List, NamedTuple, Optional, Sequence, Tuple

from ..answers import Answer, Hunk, number, read_changes, read_marks
from ..errors import Unexpected
from .commands import Call
from .screen import ALARM, GOOD, PLAIN

# The pairs that are named after a call, and the files that are named of a pair.
MOST_PAIRS, MOST_PATHS = 10, 3
Pair = Tuple[str, str]
Ask = Callable[[bytes], bytes]
# A line of words and its style.
Line = Tuple[str, str]


class Pairs(NamedTuple):
    """The pairs of a branch that are in conflict, and those of them that are unresolved."""
    in_conflict: FrozenSet[Pair]
    unresolved: FrozenSet[Pair]


NO_PAIRS = Pairs(frozenset(), frozenset())


class Watch:
    """Knows the pairs of the branches that calls have changed, so that a call costs two questions."""

    def __init__(self, ask: Ask, is_shared: bool) -> None:
        self._ask, self._is_shared = ask, is_shared
        self._known: Dict[str, Pairs] = {}

    def before(self, call: Call) -> None:
        """Notes the pairs of the branch that a call would change."""
        if self._is_shared or call.branch not in self._known:
            self._known[call.branch] = NO_PAIRS if call.kind == "branch" else self._pairs(call.branch)

    def after(self, call: Call) -> List[Line]:
        """What an accepted call has changed, where `before` was called."""
        before = self._known.get(call.branch, NO_PAIRS)
        if call.kind == "record" and not before.in_conflict and not self._is_shared:
            return []
        return self.changes(call.branch)

    def changes(self, branch: str) -> List[Line]:
        """What has changed in a branch since it was looked at last."""
        before = self._known.get(branch, NO_PAIRS)
        after = self._known[branch] = self._pairs(branch)
        return self._differences(branch, before, after)

    def forget(self, call: Call) -> None:
        """Forgets the branch that a call was to make, if it was not accepted: it may exist."""
        if call.kind == "branch":
            self._known.pop(call.branch, None)

    def _pairs(self, branch: str) -> Pairs:
        """The pairs of a branch; none where it does not exist."""
        in_conflict = self._question("conflicts", branch)
        return Pairs(in_conflict, self._question("open", branch)) if in_conflict else NO_PAIRS

    def _question(self, question: str, branch: str) -> FrozenSet[Pair]:
        lines = listed(self._ask, question, branch) or []
        return frozenset((words[0], words[1]) for words in (it.decode().split(" ") for it in lines))

    def _differences(self, branch: str, before: Pairs, after: Pairs) -> List[Line]:
        found: List[Line] = []
        began, ended = (sorted(one - other) for one, other in ((after.unresolved, before.unresolved), (before.unresolved, after.unresolved)))
        places = Places(self._ask, branch)
        for pair in began[:MOST_PAIRS]:
            if pair in before.in_conflict:
                found.append(("{} {} is unresolved again".format(*pair), ALARM))
            else:
                found.append((places.describe(pair), ALARM))
        if len(began) > MOST_PAIRS:
            found.append(("and {} pairs more: open {} lists all".format(len(began) - MOST_PAIRS, branch), PLAIN))
        found += [("resolves {} {}".format(*pair), GOOD) for pair in ended[:MOST_PAIRS]]
        if len(ended) > MOST_PAIRS:
            found.append(("and resolves {} pairs more".format(len(ended) - MOST_PAIRS), PLAIN))
        return found


def foresee(answer: bytes) -> List[Line]:
    """What the answer of `whatif` to an accepted call says that would change."""
    parts = parts_of(answer)
    opened, resolved = (parts.get(word, frozenset()) for word in ("opened", "resolved"))
    return capped(opened, "{} and {} would be in conflict, unresolved", ALARM) + capped(resolved, "{} and {} would be resolved", GOOD)


def capped(pairs: FrozenSet[Pair], words: str, style: str) -> List[Line]:
    """A line for each of some pairs, and how many there are more."""
    found = [(words.format(*pair), style) for pair in sorted(pairs)[:MOST_PAIRS]]
    return found + [("and {} pairs more".format(len(pairs) - MOST_PAIRS), PLAIN)] * (len(pairs) > MOST_PAIRS)


def parts_of(answer: bytes) -> Dict[str, FrozenSet[Pair]]:
    """The pairs in each part before the tree of an answer of `whatif`."""
    lines = iter(answer.split(b"\n")[2:])
    found: Dict[str, FrozenSet[Pair]] = {}
    for line in lines:
        word, _, count = line.decode("utf-8", "replace").partition(" ")
        if word == "tree" or not count.isdigit():
            break
        pairs = [next(lines).decode().split(" ") for _ in range(int(count))]
        found[word] = frozenset((it[0], it[1]) for it in pairs if len(it) == 2)
    return found


def enumerated(paths: Sequence[str]) -> str:
    """Some paths in a row of words, and how many there are more."""
    shown = [*paths[:MOST_PATHS], *(["{} more".format(len(paths) - MOST_PATHS)] if len(paths) > MOST_PATHS else [])]
    return " and ".join([", ".join(shown[:-1]), shown[-1]] if len(shown) > 1 else shown)


class Places:
    """In which files the pairs of a branch are in conflict: those that the sides of both change."""

    def __init__(self, ask: Ask, branch: str) -> None:
        self._ask, self._branch = ask, branch
        self._paths: Dict[str, List[str]] = {}
        self._hunks: Dict[str, List[FrozenSet[str]]] = {}

    def describe(self, pair: Pair) -> str:
        """Where a pair is in conflict, and the question that shows it."""
        both = [it for it in self._paths_of(pair[0]) if it in self._paths_of(pair[1])]
        marked = [it for it in both if any(hunk.issuperset(pair) for hunk in self._hunks_of(it))]
        places = enumerated(marked or both)
        question = "marks {} {}".format(self._branch, marked[0]) if marked else "side {} {}".format(self._branch, pair[0])
        return "{} and {} are in conflict{} (unresolved): {}".format(*pair, " in " + places if places else "", question)

    def _paths_of(self, name: str) -> List[str]:
        if name not in self._paths:
            text = b"".join(it + b"\n" for it in listed(self._ask, "side", self._branch, name) or [])
            self._paths[name] = list(dict.fromkeys(change.path for change in read_changes(Answer(text))))
        return self._paths[name]

    def _hunks_of(self, path: str) -> List[FrozenSet[str]]:
        """The names of the sides at each place of a file where sides differ."""
        if path not in self._hunks:
            text = b"".join(it + b"\n" for it in listed(self._ask, "marks", self._branch, path) or [])
            hunks = [it for it in read_marks(Answer(text)) if isinstance(it, Hunk)]
            self._hunks[path] = [frozenset(side.name for side in it.sides) for it in hunks]
        return self._hunks[path]


def listed(ask: Ask, *words: str) -> Optional[List[bytes]]:
    """The lines of the answer to a question, which says how many they are; None if it is refused or there is no file."""
    first, *lines = ask(" ".join(words).encode("utf-8", "surrogateescape") + b"\n").split(b"\n")
    found = first.decode("utf-8", "replace").split(" ")
    if len(found) != 2 or found[0] != words[0]:
        return None
    if number(found[1]) != len(lines) - 1:
        raise Unexpected(" ".join(found))
    return lines[:-1]
