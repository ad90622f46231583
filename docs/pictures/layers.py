#!/usr/bin/env python3
"""Draws docs/pictures/layers.svg, the layers of the crates, from crates.txt.

A crate stands at least one row above each crate that it uses, in the column of its group (GROUPS). Only the edges that no
path of other edges implies are drawn. With --check, says whether the picture is what crates.txt gives; the exit status is
0 where it is.
"""

import os
import sys

TOP = os.path.abspath(os.path.join(os.path.dirname(__file__), "../.."))
PICTURE = f"{TOP}/docs/pictures/layers.svg"
# Groups from left to right: their titles, colours and crates; a row of the picture has at most two crates of a group.
GROUPS = [
    ("many threads", "#fff8c5", "#9a6700", "object row history clients head run member entries shared shared_session"),
    ("patches", "#ddf4ff", "#0969da", "share base prim seq ctx catch branch notation"),
    ("repository", "#dafbe1", "#1a7f37", "call repo questions why"),
    ("texts", "#fbefff", "#8250df", "script notes git diff coding stream import commits transfer talk options"),
    ("storage", "#ffebe9", "#cf222e", "store kept kept_talk"),
    ("programs", "#f6f8fa", "#57606a", "camp c shell uses worked"),
]
WIDTH, HEIGHT, GAP_X, GAP_Y, LEFT, TOP_SPACE = 108, 26, 8, 26, 12, 44


def read():
    """The crates of crates.txt in its order, each with those of this repository that it uses."""
    with open(f"{TOP}/crates.txt", encoding="utf-8") as it:
        lines = [line.partition(":") for line in it.read().splitlines() if ":" in line]
    names = {head.split()[0] for head, _, _ in lines}
    return {head.split()[0]: [it for it in tail.split() if it in names] for head, _, tail in lines}


def rows_of(uses):
    """The row of each crate: 0 for those that use none."""
    rows = {}

    def row(name):
        if name not in rows:
            rows[name] = 1 + max((row(it) for it in uses[name]), default=-1)
        return rows[name]

    for name in uses:
        row(name)
    return rows


def direct(uses):
    """The edges that no path of other edges implies."""
    below = {}

    def all_below(name):
        if name not in below:
            below[name] = set(uses[name]).union(*(all_below(it) for it in uses[name]))
        return below[name]

    return [(name, it) for name in uses for it in uses[name]
            if not any(it in all_below(other) for other in uses[name] if other != it)]


def group_of(name):
    """The index of a crate's group; a crate of none stands with the programs."""
    short = name.removeprefix("camp_")
    return next((at for at, group in enumerate(GROUPS) if short in group[3].split()), len(GROUPS) - 1)


def layout(rows):
    """The columns of each group, and the corner of each crate."""
    cells = {}
    for name, row in rows.items():
        at = group_of(name)
        while len(cells.setdefault((at, row), [])) >= 2:
            row += 1
        cells[at, row].append(name)
    highest = max(row for _, row in cells)
    starts, x = [], LEFT
    for at in range(len(GROUPS)):
        columns = max(len(it) for (group, _), it in cells.items() if group == at)
        starts.append((x, columns))
        x += columns * (WIDTH + GAP_X) + GAP_X
    place = {}
    for (at, row), names in cells.items():
        start, columns = starts[at]
        shift = (columns - len(names)) * (WIDTH + GAP_X) / 2
        for column, name in enumerate(names):
            place[name] = (start + shift + column * (WIDTH + GAP_X), TOP_SPACE + (highest - row) * (HEIGHT + GAP_Y))
    return starts, place, x - GAP_X + LEFT, TOP_SPACE + (highest + 1) * (HEIGHT + GAP_Y)


def draw(uses):
    starts, place, width, height = layout(rows_of(uses))
    out = [f'<svg xmlns="http://www.w3.org/2000/svg" viewBox="0 0 {width} {height}" width="{width}" height="{height}" '
           'font-family="Helvetica, Arial, sans-serif" font-size="13" role="img" aria-labelledby="title">',
           '  <title id="title">The crates of camp in layers: a crate stands above those that it uses</title>',
           f'  <rect width="{width}" height="{height}" fill="#ffffff"/>']
    for (title, fill, line, _), (x, columns) in zip(GROUPS, starts):
        out.append(f'  <text x="{x + columns * (WIDTH + GAP_X) / 2 - GAP_X / 2:.0f}" y="24" fill="{line}" '
                   f'font-weight="bold" text-anchor="middle">{title}</text>')
    for name, other in direct(uses):
        (x, y), (u, v) = place[name], place[other]
        out.append(f'  <path d="M{x + WIDTH / 2:.0f} {y + HEIGHT} C{x + WIDTH / 2:.0f} {y + HEIGHT + GAP_Y:.0f} '
                   f'{u + WIDTH / 2:.0f} {v - GAP_Y:.0f} {u + WIDTH / 2:.0f} {v}" fill="none" stroke="#8c959f"/>')
    for name, (x, y) in place.items():
        _, fill, line, _ = GROUPS[group_of(name)]
        out.append(f'  <rect x="{x:.0f}" y="{y}" width="{WIDTH}" height="{HEIGHT}" rx="5" fill="{fill}" stroke="{line}"/>'
                   f'<text x="{x + WIDTH / 2:.0f}" y="{y + 18}" text-anchor="middle">{name}</text>')
    return "\n".join([*out, "</svg>", ""])


def main():
    text = draw(read())
    if "--check" in sys.argv:
        with open(PICTURE, encoding="utf-8") as it:
            if it.read() == text:
                return 0
        print("layers: docs/pictures/layers.svg is not what crates.txt gives: run docs/pictures/layers.py")
        return 1
    with open(PICTURE, "w", encoding="utf-8") as it:
        it.write(text)
    return 0


sys.exit(main())
