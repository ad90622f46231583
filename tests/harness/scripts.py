"""Random scripts, each made from a number, its seed; and the scripts of other tests.

Two of three are valid: branches that edit the lines of a few files, pull from one another, take patches out and ask. Every third
one has some bytes or lines of a valid one changed.
"""

from tests.harness import golden

WORDS = [b"", b" ", b"\t", b"#", b"end", b"done", b"client", b"record", b"pull", b"+", b"-", b"0", b"main", b"\r", b"\xff", b"1073741824"]


class Chance:
    """Numbers that look random and depend on the seed alone (splitmix64)."""

    def __init__(self, seed):
        self.state = seed

    def below(self, limit):
        mask = (1 << 64) - 1
        self.state = (self.state + 0x9E3779B97F4A7C15) & mask
        z = self.state
        z = ((z ^ (z >> 30)) * 0xBF58476D1CE4E5B9) & mask
        z = ((z ^ (z >> 27)) * 0x94D049BB133111EB) & mask
        return (z ^ (z >> 31)) % limit

    def one_in(self, limit):
        return self.below(limit) == 0

    def one_of(self, things):
        return things[self.below(len(things))]


class Maker:
    """Makes a valid script. It keeps for each branch what its files are likely to hold and which patches it is
    likely to have, so that most calls are accepted; a pull takes over what the other branch has."""

    def __init__(self, chance):
        self.chance, self.lines, self.patches = chance, [], 0
        self.files = {"main": {}}
        self.names = {"main": []}
        self.paths = ["f", "g", "d/e"][: 1 + chance.below(3)]
        self.most_branches = 3 + chance.below(4)
        self.groups, self.clients = chance.below(4), chance.below(4)

    def script(self):
        for path in self.paths:
            self.record("main", [self.add("main", path)])
            self.record("main", [self.edit("main", path)])
        for _ in range(1 + self.chance.below(3)):
            self.branch(f"b{len(self.files)}", "main")
        for _ in range(10 + self.chance.below(60)):
            self.step(self.chance.one_of(sorted(self.files)))
        for branch in sorted(self.files):
            self.lines += [f"tree {branch}", f"conflicts {branch}", f"names {branch}"]
        return "".join(line + "\n" for line in self.lines).encode()

    def step(self, branch):
        kind = self.chance.below(20)
        if kind < 9:
            count = 1 + self.chance.below(4) if self.groups and self.chance.one_in(6) else 1
            self.record(branch, [self.change(branch) for _ in range(count)])
        elif kind < 11 and len(self.files) < self.most_branches:
            self.branch(f"b{len(self.files)}", branch)
        elif kind < 16:
            others = [it for it in sorted(self.files) if it != branch]
            self.pull(self.chance.one_of(others) if others and not self.chance.one_in(12) else branch, branch)
        elif kind < 18:
            self.obliterate(branch)
        elif kind < 19 and self.clients:
            self.clients -= 1
            self.lines.append("client")
        else:
            self.lines.append(f"{self.chance.one_of(['tree', 'conflicts', 'names'])} {branch}")

    def branch(self, new, branch):
        self.lines.append(f"branch {new} {branch}")
        self.files[new] = {path: list(lines) for path, lines in self.files[branch].items()}
        self.names[new] = list(self.names[branch])

    def pull(self, branch, to):
        some = [it for it in self.names[branch] if self.chance.one_in(3)] if self.chance.one_in(2) else []
        self.lines.append(" ".join(["pull", branch, to] + some))
        self.names[to] += [it for it in some or self.names[branch] if it not in self.names[to]]
        for path, lines in self.files[branch].items():
            if self.chance.one_in(2):
                self.files[to][path] = list(lines)

    def obliterate(self, branch):
        some = [it for it in self.names[branch][2:] if self.chance.one_in(8)] or self.names[branch][-1:]
        self.lines.append(" ".join(["obliterate", branch] + some))
        self.names[branch] = [it for it in self.names[branch] if it not in some]

    def record(self, branch, changes):
        self.patches += 1
        name = f"p{self.patches}"
        self.names[branch].append(name)
        if len(changes) == 1:
            self.lines += [f"record {branch} {name} {changes[0][0]}"] + changes[0][1:]
        else:
            self.lines += [f"record {branch} {name} group"] + sum(changes, []) + ["done"]

    def change(self, branch):
        path = self.chance.one_of(self.paths)
        if path not in self.files[branch]:
            return self.add(branch, path)
        if not self.files[branch][path] and self.chance.one_in(3):
            del self.files[branch][path]
            return [f"remove {path}"]
        return self.edit(branch, path)

    def add(self, branch, path):
        self.files[branch][path] = []
        return [f"add {path}"]

    def edit(self, branch, path):
        lines = self.files[branch][path]
        at = self.chance.below(len(lines) + 1)
        old = lines[at : at + self.chance.below(3)]
        new = [f"{self.patches}-{self.chance.below(3)}" for _ in range(self.chance.below(4))] if old else ["x", f"{self.patches}"]
        lines[at : at + len(old)] = new
        return [f"edit {path} {at + 1}"] + ["-" + it for it in old] + ["+" + it for it in new] + ["end"]


def script_of(seed):
    chance = Chance(seed)
    script = Maker(chance).script()
    return script if seed % 3 else changed(script, chance)


def changed(script, chance):
    """A script with some bytes or lines of it changed."""
    for _ in range(1 + chance.below(3)):
        lines = script.split(b"\n")
        at = chance.below(len(lines))
        kind = chance.below(6)
        if kind == 0:
            lines[at] = chance.one_of(WORDS)
        elif kind == 1:
            lines.insert(at, chance.one_of(lines))
        elif kind == 2:
            del lines[at]
        elif kind == 3:
            words = lines[at].split(b" ")
            words[chance.below(len(words))] = chance.one_of(WORDS)
            lines[at] = b" ".join(words)
        elif kind == 4:
            lines = lines[:at] + [lines[at][: chance.below(len(lines[at]) + 1)]]
        else:
            place = chance.below(len(lines[at]) + 1)
            lines[at] = lines[at][:place] + bytes([chance.below(256)]) + lines[at][place + chance.below(2) :]
        script = b"\n".join(lines)
    return script


def crowd(clients, records, is_race):
    """A script of clients with so many records of added files each."""
    lines = [] if is_race else [f"branch c{client} main" for client in range(1, clients + 1)]
    for client in range(1, clients + 1):
        branch = "main" if is_race else f"c{client}"
        owners = [0 if is_race and at % 2 == 0 else client for at in range(1, records + 1)]
        lines += ["client", *(f"record {branch} p{owner}-{at} add f{owner}-{at}" for at, owner in enumerate(owners, 1))]
    return "".join(f"{line}\n" for line in lines).encode()


def table_scripts(name):
    """The scripts of tests/data/answers, or of tests/data/faults."""
    if name == "faults":
        return [golden.unescape(script) for _, _, script in golden.rows(name)]
    return [script for _, _, script, _ in golden.cases(name)]
