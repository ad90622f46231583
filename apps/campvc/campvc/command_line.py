"""The command line: the commands with their arguments, and the messages of failures."""

from __future__ import annotations

import argparse
import importlib
import signal
import sqlite3
import sys
from typing import List, NamedTuple, Tuple

try:
    from camp import BranchExists, Depends, Diverged, Error, NoBranch, NoMerge, NoPatch, Refused, TooLarge, require_library
    require_library()
except ImportError as error:
    print("campvc: {}".format(error), file=sys.stderr)
    sys.exit(128)

from . import Failure, __version__
from .show import drop_output, warn


class Parser(argparse.ArgumentParser):
    """Reports wrong arguments with git's exit status."""

    def error(self, message: str) -> None:
        self.print_usage(sys.stderr)
        self.exit(129, "{}: {}\n".format(self.prog, message))


Option = Tuple[Tuple[str, ...], dict]


class Command(NamedTuple):
    """A command: the function that runs it, whose module is imported only then; what it does, more of that for --help, its arguments."""
    run: str
    does: str
    more: str
    words: List[Option]


def word(*names: str, **how: object) -> Option:
    return names, how


PATHS = word("paths", nargs="*", metavar="PATH", help="files or folders; all that changed if none is named")
PATCHES = word("patches", nargs="*", metavar="PATCH")
PATCHES_SAID = "PATCH is the name of a patch, or its beginning."
YES = word("-y", "--yes", action="store_true", help="do not ask")
COPY = word("--copy", metavar="NAME", help="the name of this working copy: up to 12 of a to z, 0 to 9 and -")
BRANCH = word("branch", nargs="?", metavar="BRANCH")

COMMANDS = {
    "init": Command("commands.init", "make a repository, with a working copy in a folder",
        "Without --log its log is a SQLite file in .camp, which other copies on this machine may share: `campvc clone FOLDER`.", [
        word("folder", nargs="?", default=".", metavar="FOLDER"), COPY,
        word("--log", default="", metavar="LOG", help="a log that copies share: sqlite:PATH, etcd:HOST:PORT[,HOST:PORT ..]/PREFIX, or postgres:DSN")]),
    "clone": Command("commands.clone", "make one more working copy of a repository",
        "LOG is an address as of init, or the folder of another copy.", [
        word("log", metavar="LOG"), word("folder", nargs="?", metavar="FOLDER"), COPY,
        word("--branch", default="main", metavar="BRANCH", help="the branch to work on: main if not given")]),
    "status": Command("commands.status", "what has changed here, what waits for the log, and what is in conflict", "", []),
    "diff": Command("commands.diff_command", "how files differ from what is recorded", "The output can be applied by `patch -p1`.", [PATHS]),
    "record": Command("commands.record", "record changes as a patch",
        "New files are recorded too, unless .campignore lists them. For a file that `resolve` wrote to, this resolves its conflicts.", [
        PATHS, word("-m", "--message", metavar="TEXT", help="what the patch is for; its first line is its title"),
        word("-i", "--interactive", action="store_true", help="choose change by change")]),
    "log": Command("commands.log", "the patches of the branch, the last one first", "", [
        BRANCH, word("--graph", action="store_true", help="draw what each patch needs")]),
    "show": Command("commands.show_command", "a patch: its note, what it needs and holds, its changes", PATCHES_SAID, [
        word("patch", metavar="PATCH"), word("--needs", action="store_true", help="look up what it needs and holds, also among many patches")]),
    "annotate": Command("commands.annotate", "who put each line of a file there", "", [word("path", metavar="PATH")]),
    "branches": Command("commands.branches", "the branches", "", [
        word("--all", action="store_true", help="with the branches of working copies, as main--anna")]),
    "branch": Command("commands.branch", "make a branch that is as this one", "", [word("name", metavar="NAME")]),
    "switch": Command("commands.switch", "work on another branch", "The working tree has to be clean.", [word("name", metavar="BRANCH")]),
    "pull": Command("commands.pull", "take over patches of another branch",
        "Patches that they need are taken over too. The exit status is 1 if that makes a conflict. " + PATCHES_SAID, [
        word("branch", metavar="BRANCH"), PATCHES, YES]),
    "obliterate": Command("commands.take_out", "remove patches from the branch", "Patches that need them are removed too. " + PATCHES_SAID, [
        word("patches", nargs="+", metavar="PATCH"), YES]),
    "unrecord": Command("commands.take_out", "remove patches from the branch, and leave the files as they are",
        "Without PATCH the last one is removed. " + PATCHES_SAID, [PATCHES, YES]),
    "conflicts": Command("conflicts.conflicts", "the unresolved conflicts", "The exit status is 1 if there are some.", []),
    "resolve": Command("conflicts.resolve", "write the sides of conflicts into the files, with marks",
        "Then edit the files, and `campvc record` them: that resolves the conflicts. A file that still has marks is not recorded.", [
        PATHS, word("--take", metavar="PATCH", help="write the side of this patch, without marks")]),
    "sync": Command("commands.sync", "send what waits, and take over what others published",
        "The working tree has to be clean if there is something to take over.", [
        word("--log", default="", metavar="LOG", help="the log is at this address from now on"),
        word("--publish", action="store_true", help="put patches that are here alone into the branch that all share")]),
    "web": Command("commands.web", "a page of branches, patches, files and conflicts",
        "It is read-only. It serves this machine alone, unless --host names another address: then its address has a token.", [
        word("--port", type=int, default=8017, metavar="N"), word("--host", default="127.0.0.1", metavar="ADDRESS")]),
    "export": Command("git.export", "a branch for git, with a commit for each patch",
        "Without --to it is a stream for `git fast-import` on standard output.", [
        BRANCH, word("--to", metavar="FOLDER", help="a repository of git; it is made where there is none")]),
    "import": Command("git.import_command", "the first parents of a commit of git, as patches",
        "A merge is one patch, with all that it brought. What came in stays, and a second run goes on.", [
        word("repository", metavar="FOLDER", help="a repository of git"), word("commit", nargs="?", default="HEAD", metavar="COMMIT")]),
}

HINTS = {
    NoBranch: "`campvc branches` lists them", NoPatch: "`campvc log` lists them", BranchExists: "take another name",
    TooLarge: "a limit of the repository on this log is reached: split the patch, or begin another repository",
    Depends: "name both", Diverged: "take it out in one of them, with what needs it, and pull again",
    NoMerge: "pull without the one, or take the other out",
}

# The messages and exit statuses of other errors, by their names, since their modules need not be imported.
OTHERS = {"InTheWay": ("{}", 1), "Unheld": ("{}; nothing has changed", 128), "LogRefused": ("{}; nothing has changed", 128)}


def parser(words: List[str]) -> Parser:
    """Makes the parser of a command line: with all commands, unless it names one."""
    about, more = "A small version control system over camp.", "campvc COMMAND --help says more of a command."
    top = Parser(prog="campvc", description=about, epilog=more)
    top.add_argument("--version", action="version", version="campvc " + __version__)
    found = top.add_subparsers(dest="command", metavar="COMMAND", required=True, parser_class=Parser)
    for name, command in COMMANDS.items():
        if name != words[0] and words[0] in COMMANDS:
            continue
        about = command.does[0].upper() + command.does[1:] + ". " + command.more
        one = found.add_parser(name, help=command.does, description=about)
        for names, how in command.words:
            one.add_argument(*names, **how)
    return top


def run(words: List[str]) -> int:
    """Runs a command, and returns its exit status."""
    try:
        return attempt(words)
    finally:
        signal.signal(signal.SIGINT, signal.SIG_IGN)


def attempt(words: List[str]) -> int:
    given = parser(words or [""]).parse_args(words)
    try:
        signal.signal(signal.SIGINT, signal.default_int_handler)
        module, function = COMMANDS[given.command].run.split(".")
        status = getattr(importlib.import_module("." + module, __package__), function)(given)
        sys.stdout.flush()
        return status
    except Failure as failure:
        warn(str(failure))
        return failure.status
    except Refused as refused:
        warn("{}: {}".format(refused, HINTS.get(type(refused), "nothing has changed")))
        return 1
    except Error as error:
        what, status = OTHERS.get(type(error).__name__, ("{}", 128))
        warn(what.format(error))
        return status
    except KeyboardInterrupt:
        warn("interrupted: `campvc status` shows where you are")
        return 130
    except BrokenPipeError:
        drop_output()
        return 141
    except ValueError as error:
        warn("{}: correct it, and try again".format(error))
        return 128
    except (OSError, sqlite3.Error) as error:
        advice = "look at the disk (is it full, or read-only?) and at the rights of the folder; then `campvc status`"
        warn("{}: {}".format(error, advice))
        return 128

