"""The commands of `python3 -m camp`."""

from __future__ import annotations

import argparse
import os
import sys
from typing import List, NoReturn, Optional

from . import __version__
from .terminal.backend import LogPlace
from .terminal.progress import Progress
from .terminal.screen import visible

EPILOG = """exit status:
  0    it was ended by quit or by the end of the input, whatever was refused; the picture is written
  1    the branch or a patch of graph is not there; the input of json is none; a file of --load has an error
  2    the command line is refused
  3    camp_shell is not there, can't open FILE, or has ended; the log can't be opened; words say why
  130  it was ended by Ctrl-C while an answer was awaited
  141  nobody reads the output any more

environment:
  CAMP_LIB_DIR    the folder of libcamp.so, which --log needs, if it is not beside the package
  CAMP_SHELL      the program camp_shell, if it is not on the PATH
  NO_COLOR        no colour
  XDG_STATE_HOME  the folder of camp/history, the lines that were typed; ~/.local/state without it"""


class Parser(argparse.ArgumentParser):
    """One whose words about wrong arguments have no control bytes."""

    def error(self, message: str) -> NoReturn:
        super().error(visible(message.encode(errors="surrogateescape")))


def parser() -> argparse.ArgumentParser:
    form = argparse.RawDescriptionHelpFormatter
    found = Parser("python3 -m camp", description="A repository of named patches.", epilog=EPILOG, formatter_class=form)
    found.add_argument("-V", "--version", action="version", version="camp {}".format(__version__))
    commands = found.add_subparsers(dest="command", metavar="COMMAND")

    def command(name: str, text: str, description: str) -> argparse.ArgumentParser:
        return commands.add_parser(name, help=text, description=description, epilog=EPILOG, formatter_class=form)

    shell = command("shell", "hold a conversation at a terminal", "Holds a conversation with a repository. The command help lists the commands.")
    add_repository(shell)
    way = shell.add_mutually_exclusive_group()
    way.add_argument("--json", action="store_true", help="answer with one JSON object in a line for each response")
    way.add_argument("--completions", metavar="FILE",
                     help="write commands, branches, patches and paths to this file, and end: rlwrap -b ' ' -f FILE camp_shell completes them")
    graph = command("graph", "write a picture of a branch for Graphviz",
                    "Writes a picture of a branch as DOT: `python3 -m camp graph main --store FILE | dot -Tsvg >main.svg`. With patches it has "
                    "these, what they need and what needs them.")
    graph.add_argument("branch", metavar="BRANCH", help="the branch")
    graph.add_argument("patches", metavar="PATCH", nargs="*", help="patches of it")
    graph.add_argument("--open", action="store_true", help="unresolved conflicts alone, with what their patches need")
    add_repository(graph)
    turned = command("json", "turn responses into JSON", "Turns responses of camp_shell on standard input into JSON, an object in a line.")
    turned.add_argument("--back", action="store_true", help="turn JSON into responses")
    return found


def add_repository(command: argparse.ArgumentParser) -> None:
    """The options that say which repository is meant."""
    command.add_argument("--store", metavar="FILE", help="keep the repository in this file; a new file is made")
    command.add_argument("--load", metavar="FILE", nargs="+", action="extend", default=[], help="run these files of commands first")
    command.add_argument("--progress", action="store_true", help="say each second how long an answer takes, even where standard error is no terminal")
    command.add_argument("--log", metavar="ADDRESS", help="share the repository over a log: sqlite:PATH, etcd:HOST:PORT[,..]/PREFIX, postgres:DSN")
    command.add_argument("--kept", metavar="FILE", help="with --log: keep what is read of the log in this file, and start from it the next time")


def main(words: Optional[List[str]] = None) -> int:
    found = parser()
    given = found.parse_args(words)
    if given.command is None:
        found.print_help()
        return 2
    try:
        if given.command == "json":
            from .terminal.as_json import turn
            return turn(given.back)
        Progress.is_wanted = given.progress
        if given.log is not None and (given.store is not None or given.load):
            found.error("--log goes with neither --store nor --load")
        if given.kept is not None and given.log is None:
            found.error("--kept FILE goes with --log: it keeps what is read of a log")
        log = None if given.log is None else LogPlace(given.log, given.kept)
        if given.command == "graph":
            from .terminal.graph import draw
            return draw(given, log)
        if given.completions is not None:
            from .terminal.run import write_completions
            return write_completions(given.completions, given.store, given.load, log)
        if given.json:
            from .terminal.as_json import run_json
            return run_json(given.store, given.load, log)
        from .terminal.run import run
        return run(given.store, given.load, log)
    except BrokenPipeError:
        # Nothing is left to be written when Python ends.
        os.dup2(os.open(os.devnull, os.O_WRONLY), sys.stdout.fileno())
        return 141
    except KeyboardInterrupt:
        return 130


if __name__ == "__main__":
    sys.exit(main())
