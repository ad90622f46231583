"""git reads each exported branch as camp has it: commits, parents and trees; it finds no fault, and what it cannot hold is refused.

Words: FILE ..: these scripts, or those in these folders; --random FIRST LAST: random scripts; none: examples/ and 50 random ones.
Each branch is exported by `camp_shell --export` into `git fast-import`.
"""

import glob
import io
import os
import shutil
import tarfile
import tempfile

from tests.harness import programs
from tests.harness.conversation import respond
from tests.harness.paths import EXAMPLES, read, write
from tests.harness.scripts import script_of

SECONDS, GATE = 14, "after camp_shell"
# A branch of so many copies is asked in one conversation.
STEP = 60
# The mode of a file of mode 100644 in an archive.
PLAIN = 0o664


def run(report, words):
    if shutil.which("git") is None:
        return report.skip("git is not here")
    program = programs.path("camp_shell")
    for _ in programs.each(lambda it: Export(report, program, it[0]).try_script(it[1]), scripts(words)):
        report.count("scripts")


def scripts(words):
    """The scripts, each with its name."""
    is_random = words[:1] == ["--random"]
    first, last = map(int, words[1:3]) if is_random else (1, 0 if words else 50)
    files = [] if is_random else words or sorted(it for end in ("camp", "talk") for it in glob.glob(f"{EXAMPLES}/*.{end}"))
    for name in files:
        for path in sorted(glob.glob(f"{name}/**", recursive=True)) if os.path.isdir(name) else [name]:
            if os.path.isfile(path):
                yield path, read(path)
    yield from ((f"random {seed}", script_of(seed)) for seed in range(first, last + 1))


class Repository:
    """A repository of git, and its commits."""

    def __init__(self, folder):
        os.mkdir(folder)
        self.folder = folder
        self.git("init", "--quiet", "--bare")

    def git(self, *words, given=b""):
        return programs.run(["git", "-C", self.folder, *words], given)

    def commits(self, branch):
        """The commits of a branch, the oldest first: each its name, its parents, its committer and its message."""
        log = self.git("log", "--reverse", "--format=%H%x01%P%x01%cn <%ce> %cd%x01%B%x00", "--date=raw", branch)
        return [entry.lstrip(b"\n").split(b"\x01") for entry in log.stdout.split(b"\0")[:-1]]

    def tree(self, commit):
        """The files of a commit: each path with its content; all are plain ones."""
        with tarfile.open(fileobj=io.BytesIO(self.git("archive", "--format=tar", f"{commit.decode()}^{{tree}}").stdout)) as archive:
            files = [it for it in archive if not it.isdir()]
            assert all(it.isreg() and it.mode == PLAIN for it in files), commit
            return {os.fsencode(it.name): archive.extractfile(it).read() for it in files}


def lines_of(response):
    """The lines of a response after its first one."""
    return response.split(b"\n")[1:-1]


def tree_of(lines):
    """The files of a response to `tree`: each path with its content."""
    files = {}
    while lines:
        _, path, count = lines[0].split()
        content, lines = lines[1 : 1 + int(count)], lines[1 + int(count) :]
        files[path] = b"".join(line[1:] + b"\n" for line in content)
    return files


def unheld(files):
    """The paths that git cannot hold."""
    folders = {path[:at] for path in files for at in range(len(path)) if path[at : at + 1] == b"/"}
    return {path for path in files if path in folders or b".git" in path.lower().split(b"/")}


class Export:
    """A script, and the exports of its branches."""

    def __init__(self, report, program, name):
        self.report, self.program, self.name, self.kept = report, program, name, None

    def ask(self, commands):
        """The responses of a conversation over the script's repository."""
        found = list(respond([self.program, "--load", self.kept], commands))
        assert len(found) == len(commands), (self.name, found)
        return found

    def try_script(self, script):
        """The script may have faults and refusals: what is kept of a conversation is loaded then."""
        with tempfile.TemporaryDirectory(prefix="git-") as folder:
            _, branches, kept = respond([self.program], [script, b"branches", b"keep"])
            self.kept = f"{folder}/kept"
            write(self.kept, kept.partition(b"\n")[2])
            repository, branches = Repository(f"{folder}/repository"), lines_of(branches)
            for branch, patches in zip(branches, self.ask([b"names " + it for it in branches])):
                fault = self.fault_of(repository, branch, lines_of(patches))
                if fault:
                    self.report.fail(f"{self.name}: {branch.decode()}: {fault}")
            self.check(repository)

    def check(self, repository):
        head = repository.git("for-each-ref", "--count=1", "--format=%(refname)").stdout.decode().strip()
        if head:
            repository.git("symbolic-ref", "HEAD", head)
            self.report.expect_run(f"{self.name}: git fsck", repository.git("fsck", "--strict", "--no-progress"), b"")

    def trees_of_prefixes(self, branch, names):
        """The tree of a branch up to each of its patches: those after it are taken out of a copy."""
        trees = []
        for first in range(0, len(names), STEP):
            commands = []
            for at in range(first, min(first + STEP, len(names))):
                copy, after = b"git-%d" % at, names[at + 1 :]
                commands.append(b"branch %s %s" % (copy, branch))
                commands += [b"obliterate %s %s" % (copy, b" ".join(after))] if after else []
                commands.append(b"tree " + copy)
            found = self.ask(commands)
            assert all(it.startswith((b"ok ", b"tree ")) for it in found), found
            trees += [tree_of(lines_of(it)) for it in found if it.startswith(b"tree ")]
        return trees

    def fault_of(self, repository, branch, names):
        """What is wrong with the export of a branch, or None."""
        trees = self.trees_of_prefixes(branch, names)
        done = programs.run([self.program, "--load", self.kept, "--export", branch.decode()])
        bad = [at for at, tree in enumerate(trees) if unheld(tree)]
        if bad:
            wanted = [b"camp_shell: %s: git can't hold %s\n" % (names[bad[0]], path) for path in unheld(trees[bad[0]])]
            is_refused = done.returncode == 1 and not done.stdout and done.stderr in wanted
            return None if is_refused else f"not refused: {done.returncode} {done.stderr!r}"
        if done.returncode or done.stderr:
            return f"status {done.returncode}, {done.stderr!r}"
        if not names:
            return "a stream of no patch" if done.stdout else None
        taken = repository.git("fast-import", "--quiet", given=done.stdout)
        if taken.returncode or taken.stderr:
            return f"git does not take it: {taken.stderr[:200]!r}"
        return self.compare(repository, repository.commits(branch.decode()), names, trees)

    def compare(self, repository, commits, names, trees):
        if [commit[3] for commit in commits] != [name + b"\n" for name in names]:
            return f"other commits: {[commit[3] for commit in commits]} in place of {names}"
        before = b""
        for commit, name, tree in zip(commits, names, trees):
            if commit[1] != before or commit[2] != b"camp <camp> 0 +0000":
                return f"{name}: parent {commit[1]}, committer {commit[2]}"
            if repository.tree(commit[0]) != tree:
                return f"{name}: another tree"
            before = commit[0]
        self.report.count("commits", len(commits))
        return None
