"""What `help` shows at a terminal: the program's own lines in groups, and the words of the conversation."""

from __future__ import annotations

from typing import Dict, List, Sequence, Tuple

# The groups, each with the first words of its lines. A word that is in none is shown at the end of `ask`.
GROUPS: Sequence[Tuple[str, Sequence[str]]] = (
    ("change", ("branch", "record", "pull", "obliterate")),
    ("ask", ("branches", "names", "tree", "file", "annotate", "show", "needs", "held", "missing", "along", "graph", "whatif", "history")),
    ("conflicts", ("conflicts", "open", "marks", "side")),
    ("keep", ("keep",)),
    ("talk", ("why", "help")),
)
# The lines of a group that are not the program's.
OWN_LINES: Dict[str, Sequence[str]] = {
    "change": ("end: ends the body of an edit", "done: ends a group", "cancel: leaves a record that is not ended"),
    "ask": ("picture FILE BRANCH [open | NAME ..]: write a picture of patches, what they need and their conflicts",),
    "keep": ("save FILE: write the history to a file of commands", "read FILE: run the commands of a file",
             "open FILE: go on with the repository that is kept in FILE; a new file is made"),
    "talk": ("quit: end; Ctrl-D does the same", "Ctrl-C: cancel the line or the record; twice at an empty prompt: end"),
}
FILE_WORDS = ('Write a path with blanks as "a file". .save, .read and .open are the same commands.',)
BODY = ("The old lines of the edit, each after -, then the new ones, each after +, and then a line that is just end.",
        "LINE is the line where the old ones stand; without old lines the new ones are put before it.",
        "help, why, cancel and quit are answered inside a body.")
TOPICS: Dict[str, Sequence[str]] = {
    "quit": ("quit: end. exit and Ctrl-D do the same.", "Where calls would be lost it says so, and a second quit ends."),
    "edit": ("record BRANCH NAME edit PATH LINE: record an edit; its body follows, up to end", *BODY, "Example:",
             "record main hello edit notes 1", "+hello", "end"),
    "add": ("record BRANCH NAME add PATH: record a patch that adds a file without lines", "In a group write add PATH.", "Example:",
            "record main start add notes"),
    "remove": ("record BRANCH NAME remove PATH: record a patch that removes a file, whose lines an edit before has removed",
               "In a group write remove PATH.", "Example:", "record main gone remove notes"),
    "group": ("record BRANCH NAME group: record several changes, which follow, up to done",
              "A group has 1 to 64 changes: add PATH, remove PATH, or edit PATH LINE with its body.", "Example:",
              "record main both group", "add one", "edit one 1", "+hello", "end", "done"),
    "end": ("end: ends the body of an edit; it stands alone on its line.", *BODY),
    "done": ("done: ends a group; in an edit of a group write end first.",),
    "cancel": ("cancel: leaves a record that is not ended; nothing is recorded. Ctrl-C on an empty line does the same.",),
    "save": ("save FILE: write the accepted calls to FILE, as a script that gives the repository back.",
             "The file is written whole or not at all. If it exists, a second save replaces it.", *FILE_WORDS),
    "read": ("read FILE: run the commands of FILE; it stops at the first that is not accepted.", *FILE_WORDS),
    "open": ("open FILE: go on with the repository that FILE keeps, or with a new one that FILE keeps from then on.",
             "A word that can be the name of a branch is one: write ./work for a file of the name work.", *FILE_WORDS),
    "picture": ("picture FILE BRANCH: draw the patches of BRANCH, an arrow to what each needs, and conflicts",
                "picture FILE BRANCH open: unresolved conflicts alone, and what their patches need",
                "picture FILE BRANCH NAME ..: these patches, what they need and what needs them",
                "FILE ends in .svg, .png or .pdf, which Graphviz's dot writes, or in .dot, which is its input.", *FILE_WORDS[:1]),
}
TOPICS["exit"] = TOPICS["quit"]


def grouped(lines: Sequence[str]) -> List[Tuple[str, List[str]]]:
    """The lines of `help`, `USAGE: MEANING`, in groups."""
    known = {word for _, words in GROUPS for word in words}
    found = []
    for title, words in GROUPS:
        own = [it for word in words for it in lines if first_word(it) == word]
        if title == "ask":
            own += [it for it in lines if first_word(it) not in known]
        found.append((title, [*own, *OWN_LINES.get(title, ())]))
    return found


def usage_of(words: Sequence[str], lines: Sequence[str]) -> List[str]:
    """The lines of `help` about the command that a line begins; of a record those with its kind of change."""
    found = [it for it in [*lines, *OWN_LINES["keep"]] if first_word(it) == words[0]]
    kind = " {}".format(words[3]) if words[0] == "record" and len(words) > 3 else ""
    return [it for it in found if kind in it.partition(":")[0]]


def first_word(line: str) -> str:
    return line.partition(":")[0].split(" ")[0]
