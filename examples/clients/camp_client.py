#!/usr/bin/env python3
"""A client of `camp_shell --frames`: it asks, records what changed between two texts, reads conflicts and takes a side.

    camp_client.py PROGRAM      two people edit one line; tells what each step is answered
"""
import difflib
import subprocess
import sys


class Camp:
    def __init__(self, program, *files):
        words = [program, "--frames"] + (["--load", *files] if files else [])
        self.run = subprocess.Popen(words, stdin=subprocess.PIPE, stdout=subprocess.PIPE)

    def ask(self, commands):
        """The answer to commands: one request is written, and one answer is read."""
        request = commands.encode()
        self.run.stdin.write(b"%d\n%b" % (len(request), request))
        self.run.stdin.flush()
        length = self.run.stdout.readline()
        if not length:
            raise EOFError(f"the program has ended with status {self.run.wait()}")
        return self.run.stdout.read(int(length)).decode()

    def close(self):
        self.run.stdin.close()
        return self.run.wait()

    def told(self, word, branch):
        """The lines behind the first of an answer that begins with the word of its question; any other is an error."""
        first, *lines = self.ask(f"{word} {branch}\n").split("\n")
        if first.split()[0] != word:
            raise ValueError(f"{word} {branch}: {first}")
        return lines[:-1]

    def tree(self, branch):
        """The files of a branch: the lines of each, by its path."""
        lines = iter(self.told("tree", branch))
        return {path: [next(lines)[1:] for _ in range(int(count))] for _, path, count in map(str.split, lines)}

    def record(self, branch, name, path, old, new):
        """Records what changed between the lines of a file, from its end to its beginning, so that no edit moves another."""
        steps = difflib.SequenceMatcher(None, old, new, autojunk=False).get_opcodes()
        edits = [[f"edit {path} {i + 1}", *("-" + it for it in old[i:j]), *("+" + it for it in new[k:m]), "end"]
                 for step, i, j, k, m in reversed(steps) if step != "equal"]
        return self.ask("\n".join([f"record {branch} {name} group", *sum(edits, []), "done", ""]))

    def conflicts(self, branch):
        """The pairs of patches that are in conflict."""
        return [tuple(it.split()) for it in self.told("conflicts", branch)]

    def take(self, branch, name, path, side):
        """Takes a side: the lines that the file has in another branch are recorded behind the conflict."""
        return self.record(branch, name, path, self.tree(branch)[path], self.tree(side)[path])


def main(program):
    camp = Camp(program)
    print(camp.ask("record main start add notes\nbranch anna main\n"), end="")
    print(camp.record("main", "tea", "notes", [], ["milk", "tea"]), end="")
    print(camp.ask("pull main anna\n"), end="")
    print(camp.record("anna", "green", "notes", ["milk", "tea"], ["milk", "green tea"]), end="")
    print(camp.record("main", "black", "notes", ["milk", "tea"], ["milk", "black tea", "sugar"]), end="")
    print(camp.ask("pull anna main\n"), end="")
    print(camp.conflicts("main"), camp.tree("main"))
    print(camp.take("main", "agreed", "notes", "anna"), end="")
    print(camp.tree("main"))
    return camp.close()


if __name__ == "__main__":
    sys.exit(main(sys.argv[1]))
