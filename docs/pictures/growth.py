#!/usr/bin/env python3
"""Draws docs/pictures/growth.svg from growth.txt: how times grow with sizes, on logarithmic scales. A thin grey line grows
with the size, so a steeper one grows faster. With --check, says whether the picture is what growth.txt gives; the exit
status is 0 where it is.
"""

import os
import sys

FOLDER = os.path.dirname(os.path.abspath(__file__))
sys.path.insert(0, os.path.dirname(os.path.dirname(FOLDER)))
from tests.harness.growth import drawing


def panels():
    """Each panel: its title, the names of both axes, and its lines as (name, points)."""
    found = []
    with open(f"{FOLDER}/growth.txt", encoding="utf-8") as it:
        for line in it.read().splitlines():
            if line.startswith("panel "):
                found.append((*line[6:].split("|"), []))
            elif line and not line.startswith("#"):
                name, _, points = line.partition(":")
                found[-1][3].append((name, [tuple(map(float, it.split("="))) for it in points.split()]))
    return found


def main():
    text = drawing(panels())
    if "--check" in sys.argv:
        with open(f"{FOLDER}/growth.svg", encoding="utf-8") as it:
            if it.read() == text:
                return 0
        print("growth: docs/pictures/growth.svg is not what growth.txt gives: run docs/pictures/growth.py")
        return 1
    with open(f"{FOLDER}/growth.svg", "w", encoding="utf-8") as it:
        it.write(text)
    return 0


sys.exit(main())
