"""What patches need, as lanes beside a list of them: for `log --graph` at a terminal, or for a page."""

from __future__ import annotations

from typing import Dict, Iterator, List, NamedTuple


class Row(NamedTuple):
    """A patch of the list: its lane, what each lane waits for before it and after it, and whether a patch above needs it."""
    name: str
    lane: int
    before: List[str]
    after: List[str]
    is_needed: bool


def lanes(needs: Dict[str, List[str]]) -> Iterator[Row]:
    """The rows of patches, each with what it needs directly; the last one of them first."""
    waiting: List[str] = []
    for name in reversed(list(needs)):
        before = waiting if name in waiting else [*waiting, name]
        at = before.index(name)
        after = before[:at] + [it for it in reversed(needs[name]) if it not in before] + before[at + 1:]
        yield Row(name, at, before, after, name in waiting)
        waiting = after


def joints(row: Row, needs: List[str]) -> str:
    """The line of text between a row and the next one: where each lane goes."""
    moves = [(lane, row.after.index(name)) for lane, name in enumerate(row.before) if lane != row.lane]
    moves += [(row.lane, row.after.index(name)) for name in needs]
    cells = [" "] * (2 * max([1, len(row.before), len(row.after)]))
    for start, end in moves:
        low, high = sorted((2 * start, 2 * end))
        if start == end:
            cells[2 * start] = "|"
        else:
            cells[low + 2:high] = ["_" if it == " " else it for it in cells[low + 2:high]]
            cells[low + 1] = "/" if end < start else "\\"
    return "".join(cells).rstrip()
