"""camp, embedded: a shared repository of named patches, over a library whose exports are proved.

    import camp

    with camp.Repository() as repository:
        repository.record_text("main", "start", "notes", None, "hello\\n")
        print(repository.tree("main"))                 # {'notes': [b'hello']}
        print(repository.needs("main", ["start"]))     # ['start']

A view shows a repository as it was at one moment, and answers questions while the repository goes on:

    with repository.view() as view: ...

The library is libcamp.so: in the folder that CAMP_LIB_DIR names, else in this package, where clients/build puts it, or
where the system's loader looks. `python3 -m camp shell`, camp at a terminal, works without it.

A line is bytes without its line feed. Wherever lines or texts are given, a string may stand, too: it is encoded as UTF-8.
"""

from ._library import VERSION, library_path, require_library
from .answers import AcceptedCall, AnnotatedLine, Conflict, Hunk, HunkSide, Outcome, Shown, Tree
from .changes import Add, Change, Edit, Remove, Text, join_lines, split_lines
from .diffs import Content, diff
from .errors import (BranchExists, Closed, Depends, Diverged, DoesNotApply, Error, Fault, NoBranch, NoMerge, NoPatch, NothingToDo,
                     OutcomeUnknown, OutOfMemory, PatchExists, Refused, SameBranch, TooLarge, Unexpected)
from .questions import Questions
from .repository import Repository, View
from .whatif import WhatIf

__version__ = VERSION

__all__ = [
    "AcceptedCall", "Add", "AnnotatedLine", "BranchExists", "Change", "Closed", "Conflict", "Content", "Depends", "Diverged",
    "DoesNotApply", "Edit", "Error", "Fault", "Hunk", "HunkSide", "NoBranch", "NoMerge", "NoPatch", "NothingToDo", "OutOfMemory",
    "Outcome", "OutcomeUnknown", "PatchExists", "Questions", "Refused", "Remove", "Repository", "SameBranch", "Shown", "Text",
    "TooLarge", "Tree", "Unexpected", "View", "WhatIf", "diff", "join_lines", "library_path",
    "require_library", "split_lines",
]
