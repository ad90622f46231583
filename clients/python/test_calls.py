"""Each question and each refusal: the table of calls in clients/tests/calls, on repositories and views."""

import os
import unittest

import camp

TABLE = os.path.join(os.path.dirname(os.path.abspath(__file__)), "..", "tests", "calls")
QUESTIONS = {"tree", "names", "conflicts", "open", "branches", "file", "annotate", "marks", "needs", "held", "missing", "along",
             "show", "side", "graph", "whatif"}


def tables():
    """The names of the repositories, each with its calls: the words of a call, and the lines of its result."""
    found = []
    with open(TABLE, encoding="ascii") as file:
        for line in file.read().split("\n"):
            if line.startswith("== "):
                found.append((line[3:], []))
            elif line.startswith("> "):
                found[-1][1].append((line[2:].split(" "), []))
            elif line and found:
                found[-1][1][-1][1].append(line)
    return found


def names_of(word):
    return {"all": None, "-": []}.get(word, word.split(","))


def lines_of(word):
    return word.split("|") if word else []


def change_of(word):
    kind, path, *rest = word.split(":")
    if kind == "fill":
        return camp.Edit(path, 1, [], ["x"] * int(rest[0]))
    if kind == "edit":
        return camp.Edit(path, int(rest[0]), lines_of(rest[1]), lines_of(rest[2]))
    return {"add": camp.Add, "remove": camp.Remove}[kind](path)


def text_of(word):
    return None if word == "none" else "".join(line + "\n" for line in lines_of("" if word == "-" else word))


def call(asked, method, words):
    """Calls a method with the arguments that words stand for."""
    if method == "whatif":
        return call(asked.whatif, words[0], words[1:])
    if method == "record":
        return asked.record(*words[:2], [change_of(word) for word in words[2:]])
    if method == "record_text":
        return asked.record_text(*words[:3], *map(text_of, words[3:]))
    lists = {"needs": 1, "held": 1, "obliterate": 1, "graph": 1, "along": 2, "pull": 2}
    count = lists.get(method, len(words))
    return getattr(asked, method)(*words[:count], *map(names_of, words[count:]))


def joined(lines):
    return b"|".join(lines).decode("ascii")


def shown(value):
    """The lines of a table that a result stands as."""
    if value is None:
        return ["none"]
    if isinstance(value, int):
        return [str(value)]
    if isinstance(value, bytes):
        return value.decode("ascii").split("\n")[:-1]
    if isinstance(value, str):
        patches = [line.split('"')[1] for line in value.split("\n") if line.startswith('  "') and line.count('"') == 2]
        return [" ".join([value.split("\n")[0], *patches])]
    if isinstance(value, dict):
        return ["{}={}".format(path, joined(lines)) for path, lines in value.items()] or ["-"]
    if isinstance(value, camp.Outcome):
        return [*shown(value.number), *shown(value.conflicts), *shown(value.opened), *shown(value.resolved), *shown(value.tree)]
    if isinstance(value, camp.Shown):
        return [*value.catches, *shown(value.changes)]
    return shown_list(value)


def shown_list(values):
    first = values[0] if values else None
    if first is None:
        return ["-"]
    if isinstance(first, str):
        return [" ".join(values)]
    if isinstance(first, camp.Conflict):
        return [" ".join("{}/{}".format(it.left, it.right) for it in values)]
    if isinstance(first, camp.AnnotatedLine):
        return ["{}={}".format(it.name, it.line.decode("ascii")) for it in values]
    if isinstance(first, camp.AcceptedCall):
        return ["{} {} {}".format(it.number, it.seat, it.command) for it in values]
    if isinstance(first, (camp.Add, camp.Remove, camp.Edit)):
        return [shown_change(it) for it in values]
    return [shown_part(it) for it in values]


def shown_change(change):
    if isinstance(change, camp.Edit):
        return "edit:{}:{}:{}:{}".format(change.path, change.line, joined(change.old), joined(change.new))
    return "{}:{}".format("add" if isinstance(change, camp.Add) else "remove", change.path)


def shown_part(part):
    if isinstance(part, bytes):
        return "=" + part.decode("ascii")
    sides = ["{}:{}".format(side.name, joined(side.lines)) for side in part.sides]
    return "{" + ";".join([joined(part.lines), *sides]) + "}"


def result(asked, words):
    """The lines of a call's result, and the error that it raises."""
    try:
        value = call(asked, words[0], words[1:])
    except camp.Refused as refused:
        return [" ".join(["!", type(refused).__name__, *refused.names])], refused
    except camp.Fault as fault:
        return ["! Fault {} {}".format(fault.line, fault.kind)], fault
    if words[0] == "file" and value is not None:
        return ["=" + joined(value)], None
    return shown(value), None


class Calls(unittest.TestCase):
    def test_each_call_has_its_result(self):
        for name, calls in tables():
            with camp.Repository() as repository:
                for words, wanted in calls:
                    with self.subTest(repository=name, call=" ".join(words)):
                        found, error = result(repository, words)
                        self.assertEqual(found, wanted)
                        self.check_cause(error, words)
                    if words[0] in QUESTIONS:
                        with self.subTest(view_of=name, call=" ".join(words)), repository.view() as view:
                            self.assertEqual(result(view, words)[0], wanted)

    def check_cause(self, error, words):
        """A cause begins with the response; a refusal that is only foreseen, or that asks for nothing, has none."""
        if isinstance(error, camp.Fault):
            self.assertEqual(error.why.split("\n")[0], "fault {} {}".format(error.line, error.kind))
        elif error is not None and words[0] != "whatif" and words[-1] != "-":
            self.assertEqual(error.why.split("\n")[0], " ".join(["refused", str(error.number), *error.names]))

    def test_each_question_and_refusal_is_in_the_table(self):
        called = {words[0] for _, calls in tables() for words, _ in calls}
        self.assertEqual({name for name in QUESTIONS if name not in called}, set())
        raised = {wanted[0].split(" ")[1] for _, calls in tables() for _, wanted in calls if wanted[:1] and wanted[0][:1] == "!"}
        self.assertEqual(raised | {"NoMerge"}, {"Fault", *(it.__name__ for it in camp.errors.REFUSALS.values())})


if __name__ == "__main__":
    unittest.main()
