"""Pictures of a branch, as DOT for Graphviz: `python3 -m camp graph`, `picture` at a terminal.

Up to `MOST_NAMED` patches are shown with their paths, up to `MOST_PATCHES` by their names, with the paths as tooltips; what arrows and
conflicts join is drawn as one part, and the parts stand in a grid. Of more, each
group of patches that conflicts join is a cluster in a grid, with arrows between patches of clusters alone, and the others are
counted by file in one table. A patch that more than `MOST_ARROWS` others need directly says how many need it, in place of the
arrows; patches that are joined to nothing else are one node then, if they are many.
"""

from __future__ import annotations

import io
import math
from typing import Callable, Dict, Iterable, List, NamedTuple, Sequence, Set, Tuple

from .answers import Answer, Conflict, read_changes, read_conflicts, read_names, read_shown
from .changes import Change, command
from .errors import error_of
from .json_form import next_response

Ask = Callable[[bytes], bytes]
MOST_NAMED, MOST_PATCHES, MOST_ARROWS = 60, 250, 12
# The patches that are joined to nothing but what they need, which are one node if they are more.
MOST_ALONE = 8
# Of a picture by conflicts: the clusters that are shown, the patches that one of them names, and the files that are named.
MOST_CLUSTERS, MOST_IN_CLUSTER, MOST_FILES = 40, 12, 12
# Of a patch: the paths that its second line has.
MOST_PATHS = 2
# Of a grid of parts: the rows for each column. A part is wider than it is high.
ROWS_BY_COLUMNS = 1.5
# Nodes that are no patches: no name has a blank.
LEGEND, OTHERS = "a legend", "other patches"
UNRESOLVED, RESOLVED = "#c62828", "#8d6e00"
HEAD = """digraph {
  rankdir=LR; ranksep=0.5; nodesep=0.15; fontname="sans-serif"; fontsize=11;
  node [shape=box, style="rounded,filled", fillcolor=white, color=gray45, height=0.3, margin="0.1,0.05", fontname="sans-serif", fontsize=11];
  edge [color=gray50, arrowsize=0.6, fontname="sans-serif", fontsize=9];
"""
STYLES = {"unresolved": 'fillcolor="#fdecea", color="{}", penwidth=1.6'.format(UNRESOLVED),
          "resolved": 'fillcolor="#fff8e1", color="{}", penwidth=1.2'.format(RESOLVED)}
LINES = {"unresolved": 'dir=none, constraint=false, color="{}", penwidth=2.2'.format(UNRESOLVED),
         "resolved": 'dir=none, constraint=false, color="{}", penwidth=1.4, style=dashed'.format(RESOLVED)}


class Patches(NamedTuple):
    """Patches of a branch in its order: what each needs directly and the paths that it changes; their conflicts, and those that
    are unresolved."""
    needs: Dict[str, List[str]]
    paths: Dict[str, List[str]]
    conflicts: List[Conflict]
    unresolved: Set[Conflict]

    def state_of(self, pair: Conflict) -> str:
        return "unresolved" if pair in self.unresolved else "resolved"

    def states(self) -> Dict[str, str]:
        """Of each patch that is in conflict, whether one of its conflicts is unresolved."""
        pairs = sorted(self.conflicts, key=lambda pair: pair in self.unresolved)
        return {name: self.state_of(pair) for pair in pairs for name in pair}


def picture(ask: Ask, branch: str, names: Sequence[str] = (), only_open: bool = False) -> str:
    """A branch; or these patches, what they need and what needs them; or what is in an unresolved conflict, and what that needs.
    A refusal is raised."""
    patches = read_patches(ask, branch, names, only_open)
    title = "{}: {}, {}, {} unresolved".format(
        branch, counted(len(patches.needs), "patch"), counted(len(patches.conflicts), "conflict"), len(patches.unresolved))
    rows = _legend(patches)
    if len(patches.needs) > MOST_PATCHES:
        node = "  {} [shape=box, style=dotted, fontsize=9, label=<{}>];\n".format(quoted(LEGEND), _table(rows))
        return "{}  label={}; labelloc=t;\n{}{}}}\n".format(HEAD, quoted(title), "".join(_by_conflicts(patches)), node)
    label = _table(['<tr><td align="left">{}</td></tr>'.format(title), *rows])
    return "{}  label=<{}>; labelloc=t;\n{}}}\n".format(HEAD, label, "".join(_by_patches(patches)))


def read_patches(ask: Ask, branch: str, names: Sequence[str], only_open: bool) -> Patches:
    """Asks all that a picture shows."""
    unresolved = read_conflicts(listed(ask, "open", branch))
    sides = sorted({name for pair in unresolved for name in pair})
    if only_open:
        needs = _needed(read_needs(listed(ask, "graph", branch, *sides)), sides) if sides else {}
    else:
        needs = read_needs(listed(ask, "graph", branch, *names))
    conflicts = [it for it in read_conflicts(listed(ask, "conflicts", branch)) if it.left in needs and it.right in needs]
    sided = {name for pair in conflicts for name in pair}
    asked = b"".join(command("side" if name in sided else "show", branch, name) for name in needs)
    answers = io.BytesIO(ask(asked) if asked else b"")
    paths = {name: paths_of(next_response(answers.readline)) for name in needs}
    return Patches(needs, paths, conflicts, {it for it in unresolved if it in conflicts})


def _needed(needs: Dict[str, List[str]], names: Sequence[str]) -> Dict[str, List[str]]:
    """The part of a graph that some patches need, with these."""
    kept, new = set(), list(names)  # type: Set[str], List[str]
    while new:
        name = new.pop()
        if name not in kept:
            kept.add(name)
            new += needs[name]
    return {name: on for name, on in needs.items() if name in kept}


def listed(ask: Ask, *words: str) -> Answer:
    """The lines of the answer to a question, behind the first one."""
    answer = Answer(ask(command(*words)))
    first = answer.next_words()
    if first[0] != words[0]:
        raise error_of(first)
    return answer


def read_needs(answer: Answer) -> Dict[str, List[str]]:
    """The patches of the library's graph, each with what it needs directly."""
    needs: Dict[str, List[str]] = {}
    for line in read_names(answer):
        words = line.split('"')
        if len(words) == 3:
            needs[words[1]] = []
        elif len(words) == 5 and words[4] == ";":
            needs[words[1]].append(words[3])
    return needs


def paths_of(response: bytes) -> List[str]:
    """The paths that the answer of `side` or `show` changes."""
    answer = Answer(response)
    if answer.next_words()[0] == "show":
        changes: Iterable[Change] = read_shown(answer).changes
    else:
        changes = read_changes(answer)
    return list(dict.fromkeys(it.path for it in changes))


def quoted(text: str) -> str:
    """A text as an identifier of DOT."""
    return '"{}"'.format(text.replace("\\", "\\\\").replace('"', '\\"'))


def escaped(text: str) -> str:
    """A text in a label that has markup."""
    return text.replace("&", "&amp;").replace("<", "&lt;").replace(">", "&gt;")


def counted(count: int, what: str) -> str:
    return "{} {}{}".format(count, what, "" if count == 1 else "s" if not what.endswith("h") else "es")


def some(values: Sequence[str], most: int) -> str:
    """Values with commas, and how many there are more."""
    return ", ".join([*values[:most], *(["{} more".format(len(values) - most)] if len(values) > most else [])])


def _hubs(needs: Dict[str, List[str]]) -> Dict[str, int]:
    """The patches that too many others need directly, each with how many."""
    counts: Dict[str, int] = {}
    for on in needs.values():
        for name in on:
            counts[name] = counts.get(name, 0) + 1
    return {name: count for name, count in counts.items() if count > MOST_ARROWS}


def _by_patches(patches: Patches) -> List[str]:
    hubs, states = _hubs(patches.needs), patches.states()
    arrows = [(name, it) for name, on in patches.needs.items() for it in on if it not in hubs]
    folds = _folds(patches.needs, {name for arrow in arrows for name in arrow} | states.keys() | hubs.keys())
    folded = {name for names in folds.values() for name in names}
    nodes = {name: _node(patches, name, hubs, states.get(name, "")) for name in patches.needs if name not in folded}
    for on, names in folds.items():
        title = "{} {}".format(counted(len(names), "patch"), "that need {}".format(some(on, MOST_PATHS)) if on else "that stand alone")
        node = "folded " + " ".join(on)
        nodes[node] = "  {} [shape=folder, style=filled, fillcolor=gray95, label={}, tooltip={}];\n".format(
            quoted(node), quoted(title), quoted(", ".join(names)))
        arrows += [(node, it) for it in on]
    lines = ["  {} -> {};\n".format(*map(quoted, arrow)) for arrow in arrows]
    lines += [_line(pair, patches.state_of(pair)) for pair in patches.conflicts]
    return [_grid_of_parts(len(nodes), [*arrows, *patches.conflicts]), *nodes.values(), *lines]


def _grid_of_parts(nodes: int, lines: Sequence[Tuple[str, str]]) -> str:
    """The grid in which the parts stand that lines join, of so many nodes."""
    joined = clusters_of(lines)
    parts = len(joined) + nodes - sum(map(len, joined))
    return "  pack=14; packmode=array_{};\n".format(max(1, math.ceil(math.sqrt(ROWS_BY_COLUMNS * parts))))


def _folds(needs: Dict[str, List[str]], shown: Set[str]) -> Dict[Tuple[str, ...], List[str]]:
    """The patches that are joined to nothing but what they need, by that, where they are many: they are one node."""
    found: Dict[Tuple[str, ...], List[str]] = {}
    for name, on in needs.items():
        if name not in shown:
            found.setdefault(tuple(on), []).append(name)
    return {on: names for on, names in found.items() if len(names) > MOST_ALONE}


def _node(patches: Patches, name: str, hubs: Dict[str, int], state: str) -> str:
    """A patch: its name, its paths and why it has no arrows as lines, and a tooltip with all that is known."""
    paths, on = patches.paths[name], patches.needs[name]
    small = [some(paths, MOST_PATHS)] if paths and len(patches.needs) <= MOST_NAMED else []
    small += ["needed by {}: no arrows".format(hubs[name])] if name in hubs else []
    label = name + "".join('<br/><font point-size="9" color="gray30">{}</font>'.format(escaped(it)) for it in small)
    tips = [name, "changes " + ", ".join(paths) if paths else "changes nothing", *(["needs " + ", ".join(on)] if on else [])]
    tips += ["in an {} conflict".format(state) if state == "unresolved" else "in a resolved conflict"] if state else []
    style = ", " + STYLES[state] if state else ""
    return "  {} [label=<{}>, tooltip={}{}];\n".format(quoted(name), label, quoted("; ".join(tips)), style)


def _line(pair: Conflict, state: str) -> str:
    tip = quoted("{} and {}: {} conflict".format(pair.left, pair.right, state))
    return "  {} -> {} [{}, tooltip={}];\n".format(quoted(pair.left), quoted(pair.right), LINES[state], tip)


def clusters_of(pairs: Sequence[Tuple[str, str]]) -> List[List[str]]:
    """The groups of patches that pairs join, as conflicts do, in the order of their first pair."""
    group_of: Dict[str, List[str]] = {}
    for pair in pairs:
        groups = [group_of.setdefault(name, [name]) for name in pair]
        if groups[0] is not groups[1]:
            groups[0].extend(groups[1])
            group_of.update((name, groups[0]) for name in groups[1])
    return list({id(it): it for it in group_of.values()}.values())


def _by_conflicts(patches: Patches) -> List[str]:
    """The groups that conflicts join in rows, the unresolved ones first, and how many other patches each file has."""
    states = patches.states()
    by_state: Dict[str, List[List[str]]] = {"unresolved": [], "resolved": []}
    for group in clusters_of(patches.conflicts):
        by_state[_state_of(group, states)].append(group)
    shown = (by_state["unresolved"] + by_state["resolved"])[:MOST_CLUSTERS]
    hidden = {state: sum(it not in shown for it in groups) for state, groups in by_state.items()}
    node_of: Dict[str, str] = {}
    found = [line for at, group in enumerate(shown) for line in _cluster(patches, at, group, states, node_of)]
    rest = [name for name in patches.needs if name not in node_of]
    found += _others(patches, rest, hidden) if rest else []
    found += _grid([node_of[group[0]] for group in shown], [OTHERS] if rest else [])
    return found + _arrows(patches.needs, node_of)


def _grid(nodes: Sequence[str], last: Sequence[str]) -> List[str]:
    """Lines that nobody sees, which put some nodes into rows, one below the other, the legend above and others below."""
    width = math.ceil(math.sqrt(len(nodes) / 2))
    # What stands below the legend is drawn to it, so that a column with fewer rows begins at the top, too.
    weighed = [((LEGEND, it), ", weight=9") for it in nodes[:width]]
    below = [*zip(nodes, nodes[width:]), *((it, other) for it in nodes[-width:] for other in last)]
    return ["  rankdir=TB;\n", *("  {} -> {} [style=invis{}];\n".format(*map(quoted, pair), how)
                                 for pair, how in [*weighed, *((it, "") for it in below)])]


def _state_of(group: Sequence[str], states: Dict[str, str]) -> str:
    """Whether a group of patches in conflict is resolved: all of them are."""
    return "unresolved" if any(states[it] == "unresolved" for it in group) else "resolved"


def _cluster(patches: Patches, at: int, group: Sequence[str], states: Dict[str, str], node_of: Dict[str, str]) -> List[str]:
    """A group of patches in conflict, with its files; one of many patches is a single node."""
    state = _state_of(group, states)
    is_open = state == "unresolved"
    paths = list(dict.fromkeys(path for name in group for path in patches.paths[name]))
    title = "{}: {}".format(state, some(paths, MOST_PATHS))
    colour = UNRESOLVED if is_open else RESOLVED
    found = ['  subgraph cluster_{} {{\n    label={}; color="{}"; fontcolor="{}"; style=rounded; penwidth={};\n'.format(
        at, quoted(title), colour, colour, 2 if is_open else 1)]
    if len(group) > MOST_IN_CLUSTER:
        node = "conflict {}".format(at)
        node_of.update((name, node) for name in group)
        style = STYLES["unresolved" if is_open else "resolved"]
        found.append("    {} [label={}, tooltip={}, {}];\n".format(quoted(node), quoted(counted(len(group), "patch")), quoted(", ".join(group)), style))
    else:
        node_of.update((name, name) for name in group)
        found += ["  " + _node(patches, name, {}, states[name]) for name in group]
        pairs = [it for it in patches.conflicts if it.left in group]
        found += ["  " + _line(pair, patches.state_of(pair)) for pair in pairs]
    return [*found, "  }\n"]


def _others(patches: Patches, names: Sequence[str], hidden: Dict[str, int]) -> List[str]:
    """A table of the files that most of some patches change first, with how many these are, and what else is not shown."""
    counts: Dict[str, int] = {}
    for name in names:
        path = (patches.paths[name] or ["no file"])[0]
        counts[path] = counts.get(path, 0) + 1
    largest = sorted(counts, key=lambda path: -counts[path])
    rows = [(path, counted(counts[path], "patch")) for path in largest[:MOST_FILES]]
    if len(largest) > MOST_FILES:
        rows.append((counted(len(largest) - MOST_FILES, "other file"), counted(sum(counts[path] for path in largest[MOST_FILES:]), "patch")))
    rows += [("not shown", "{} of {} conflicts".format(counted(number, "cluster"), state)) for state, number in hidden.items() if number]
    cells = "".join('<tr><td align="left">{}</td><td align="left"><font color="gray30">{}</font></td></tr>'.format(escaped(path), text)
                    for path, text in rows)
    return ['  {} [shape=folder, style=filled, fillcolor=gray95, fontsize=9, tooltip={}, label=<'
            '<table border="0" cellborder="0" cellspacing="0" cellpadding="1"><tr><td align="left" colspan="2">{}</td></tr>{}</table>>];\n'.format(
                quoted(OTHERS), quoted(some(names, 20)), "{} more".format(counted(len(names), "patch")), cells)]


def _arrows(needs: Dict[str, List[str]], node_of: Dict[str, str]) -> List[str]:
    """An arrow between two nodes where a patch of one needs one of the other, with the number of such pairs if they are many."""
    counts: Dict[Tuple[str, str], int] = {}
    for name, on in needs.items():
        for it in on:
            pair = (node_of.get(name, ""), node_of.get(it, ""))
            if all(pair) and pair[0] != pair[1]:
                counts[pair] = counts.get(pair, 0) + 1
    return ["  {} -> {} [constraint=false{}];\n".format(quoted(one), quoted(other), ", label={}".format(count) if count > 1 else "")
            for (one, other), count in counts.items()]


def _legend(patches: Patches) -> List[str]:
    """What the lines and colours mean, of those that stand in the picture, as rows of a table."""
    states = {patches.state_of(it) for it in patches.conflicts}
    cell = '<tr><td align="left"><font point-size="9" color="{}">{}</font></td></tr>'
    found = [cell.format("gray30", "arrow: to what a patch needs")]
    if "unresolved" in states:
        found.append(cell.format(UNRESOLVED, "red, thick line: unresolved conflict"))
    if "resolved" in states:
        found.append(cell.format(RESOLVED, "brown, dashed line: resolved conflict"))
    if _hubs(patches.needs) and len(patches.needs) <= MOST_PATCHES:
        found.append(cell.format("gray30", "no arrows: more than {} need it directly".format(MOST_ARROWS)))
    if len(patches.needs) > MOST_PATCHES:
        found.append(cell.format("gray30", "box: patches in conflict; folder: all others, without arrows"))
    return found


def _table(rows: Sequence[str]) -> str:
    return '<table border="0" cellborder="0" cellspacing="0" cellpadding="1">{}</table>'.format("".join(rows))
