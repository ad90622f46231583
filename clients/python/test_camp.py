"""The package over the library: values, texts, errors, views and threads; run by itself also test_calls, which has the table
of calls, and test_wheel."""

import gc
import os
import pickle
import random
import subprocess
import sys
import tempfile
import threading
import unittest

import camp
from camp import Add, Edit, Hunk, HunkSide, Remove, Repository, diff

FOLDER = os.path.dirname(os.path.abspath(__file__))


def two_branches() -> Repository:
    """main has f with the line `one`, which main's `english` and other's `german` replace."""
    repository = Repository()
    repository.record("main", "start", [Add("f"), Edit("f", 1, [], ["one"])])
    repository.branch("other", "main")
    repository.record("main", "english", [Edit("f", 1, ["one"], ["first"])])
    repository.record("other", "german", [Edit("f", 1, ["one"], ["erstens"])])
    return repository


def applied(lines, changes):
    """The lines of a file after changes; None where there is no file."""
    for change in changes:
        if isinstance(change, Add):
            assert lines is None
            lines = []
        elif isinstance(change, Remove):
            assert lines == []
            lines = None
        else:
            first = change.line - 1
            assert tuple(lines[first:first + len(change.old)]) == change.old and first <= len(lines)
            assert max(len(change.old), len(change.new)) <= 65_535 and change.old + change.new
            lines = lines[:first] + list(change.new) + lines[first + len(change.old):]
    return lines


class Values(unittest.TestCase):
    def test_a_line_may_be_a_string_and_is_kept_as_bytes(self):
        edit = Edit("f", 1, ["ä"], [b"b"])
        self.assertEqual(edit, Edit("f", 1, ("ä".encode(),), ["b"]))
        self.assertEqual((edit.old, edit.new), ((b"\xc3\xa4",), (b"b",)))
        self.assertEqual(len({edit, Edit("f", 1, ["ä"], ["b"]), Add("f"), Remove("f")}), 3)

    def test_texts_have_lines(self):
        for text, lines in (("", []), ("\n", [b""]), ("a", [b"a"]), ("a\n", [b"a"]), ("a\n\nb", [b"a", b"", b"b"]), (b"\xff\r\n", [b"\xff\r"])):
            self.assertEqual(camp.split_lines(text), lines)
            self.assertEqual(camp.split_lines(camp.join_lines(lines)), lines)

    def test_a_single_string_is_no_list(self):
        with two_branches() as repository, repository.view() as view:
            for call in (lambda: repository.obliterate("main", "start"), lambda: repository.pull("other", "main", "german"),
                         lambda: view.needs("main", "start"), lambda: view.held("main", b"start"), lambda: view.graph("main", "start"),
                         lambda: view.along("other", "main", "german"), lambda: Edit("f", 1, "one", []), lambda: Edit("f", 1, [], "one")):
                with self.assertRaisesRegex(TypeError, "a list is wanted, not a single string"):
                    call()
            for call in (lambda: repository.record("main", "x", Add("g")), lambda: Edit("f", 1, [1]), lambda: repository.ask(5)):
                self.assertRaises(TypeError, call)

    def test_each_thing_has_one_name(self):
        for one in (camp, camp.Repository, camp.View, camp.WhatIf):
            names = camp.__all__ if one is camp else [it for it in dir(one) if not it.startswith("_")]
            things = [getattr(one, it) for it in names]
            self.assertEqual([it for at, it in enumerate(names) if any(things[at] is other for other in things[:at])], [])

    def test_a_word_is_one_word_and_a_line_one_line(self):
        with Repository() as repository:
            for call in (lambda: repository.names("main\nnames main"), lambda: repository.names(""), lambda: repository.file("main", "a b"),
                         lambda: repository.record("main", "x", [Edit("f", 1, [], ["a\nb"])])):
                self.assertRaises(ValueError, call)
            self.assertEqual(repository.names("main"), [])


class Diffs(unittest.TestCase):
    def test_only_what_differs_is_changed(self):
        rows = (("a\nb\nc\n", "a\nB\nc\n", [Edit("f", 2, ["b"], ["B"])]), ("a\n", "a\na\n", [Edit("f", 2, [], ["a"])]), ("a\n", "a", []),
                (None, "", [Add("f")]), (None, "a", [Add("f"), Edit("f", 1, [], ["a"])]), ("", None, [Remove("f")]), (None, None, []),
                (["a"], None, [Edit("f", 1, ["a"]), Remove("f")]), ("x\na\ny\n", "a\n", [Edit("f", 3, ["y"]), Edit("f", 1, ["x"])]))
        for old, new, changes in rows:
            self.assertEqual(diff("f", old, new), changes)

    def test_changes_make_the_new_text(self):
        source = random.Random(7)
        for size in [*range(12)] * 20 + [60, 300, 300]:
            old, new = ([b"%d" % source.randrange(size + 1) for _ in range(source.randrange(size + 1))] for _ in range(2))
            for most in (1, 2, 64):
                changes = diff("f", old, new, most)
                self.assertLessEqual(len(changes), most)
                self.assertEqual(applied(old, changes), new)

    def test_long_texts(self):
        lines = [b"%d" % at for at in range(150_000)]
        for old, new, count in ((None, lines, 4), (lines, None, 4), (lines, lines[::-1], 6), (lines, [b"x", *lines], 1), (lines, lines[::1000], 64)):
            changes = diff("f", old, new)
            self.assertLessEqual(len(changes), count)
            self.assertEqual(applied(old, changes), new)


class Texts(unittest.TestCase):
    def test_a_text_is_asked_and_answered(self):
        with Repository() as repository:
            self.assertEqual(repository.ask(b""), b"")
            self.assertEqual(repository.ask("names main\nwhat\n"), b"names 0\nfault 2 unknown command\n")

    def test_executed_commands_are_counted(self):
        with camp.Repository() as repository:
            for text, count in (("", 0), ("names main", 1), ("record main a add f\n# why\n\nrecord main a add f\n", 4),
                                ("record main b edit f 1\n+b\nend\nrecord main c edit f 1\n+c\n", 2), ("", 0)):
                repository.ask(text)
                self.assertEqual(repository.executed, count)

    def test_any_byte_but_a_line_feed_may_stand_in_a_line(self):
        line = bytes(set(range(256)) - {10})
        with Repository() as repository:
            repository.record("main", "a", [Add("f"), Edit("f", 1, [], [line])])
            self.assertEqual(repository.file("main", "f"), [line])
            repository.record_text("main", "b", "f", camp.join_lines([line]), b"")
            self.assertEqual(repository.tree("main"), {"f": []})

    def test_an_equal_text_is_not_recorded(self):
        with Repository() as repository:
            self.assertRaises(ValueError, repository.record_text, "main", "a", "f", "x\n", "x")
            self.assertEqual(repository.history(), [])

    def test_a_script_keeps_a_repository(self):
        with two_branches() as repository:
            repository.pull("other", "main")
            with Repository(repository.keep()) as again:
                self.assertEqual(again.keep(), repository.keep())
                self.assertEqual(again.open("main"), [("english", "german")])
            self.assertRaises(camp.NoBranch, Repository, "branch a none\n")
            self.assertRaises(camp.Fault, Repository, "what\n")
            self.assertRaises(camp.Unexpected, Repository, "branches\n")

    def test_senseless_texts(self):
        source = random.Random(1)
        with Repository() as repository:
            for size in (1, 100, 10_000, 3_000_000):
                repository.ask(source.randbytes(size))
            self.assertEqual(repository.names("main"), [])


class Limits(unittest.TestCase):
    def test_a_repository_has_the_limits_that_it_is_given(self):
        repository = Repository(catches=1, branches=2)
        repository.record("main", "a", [Add("f")])
        self.assertRaises(camp.TooLarge, repository.record, "main", "b", [Add("g")])
        repository.branch("x", "main")
        self.assertRaises(camp.TooLarge, repository.branch, "y", "main")

    def test_limits_are_in_range(self):
        for catches, branches in ((0, 1), (16777217, 1), (1, 0), (1, 65537), (-1, 1)):
            self.assertRaises(ValueError, Repository, catches=catches, branches=branches)
        self.assertEqual(Repository(catches=16777216, branches=65536).record("main", "a", [Add("f")]), 1)


class Errors(unittest.TestCase):
    def test_a_refusal_has_its_names_and_its_cause(self):
        with two_branches() as repository:
            with self.assertRaises(camp.Depends) as caught:
                repository.obliterate("main", ["start"])
            error = caught.exception
            self.assertEqual((error.number, error.patch, error.on, error.names), (11, "english", "start", ("english", "start")))
            self.assertEqual(str(error), "english depends on start")
            self.assertTrue(error.why.startswith("refused 11 english start\n>obliterate main start\n") and error.why.endswith("\n"))
            again = pickle.loads(pickle.dumps(error))
            self.assertEqual((type(again), again.names, again.why, str(again)), (type(error), error.names, error.why, str(error)))
            self.assertIsInstance(error, camp.Refused)
            self.assertEqual(repository.names("main"), ["start", "english"])

    def test_each_refusal_has_names_of_its_own(self):
        for number, refusal in camp.errors.REFUSALS.items():
            names = ["a", "b"][:refusal.message.count("{}")]
            error = camp.errors.error_of(["refused", str(number), *names], "cause")
            self.assertEqual((type(error), error.number, list(error.names), error.why), (refusal, number, names, "cause"))
            for attribute, name in zip({"NoMerge": ("left", "right"), "Depends": ("patch", "on")}.get(refusal.__name__, ()), names):
                self.assertEqual(getattr(error, attribute), name)
            self.assertIsInstance(camp.errors.error_of(["refused", str(number), "a", "b", "c"]), camp.Unexpected)
        for words in (["refused", "99"], ["refused", "x"], ["fault", "1"], ["fault", "x", "y"], ["refused"], ["x"]):
            self.assertIsInstance(camp.errors.error_of(words), camp.Unexpected)

    def test_each_code_has_one_meaning(self):
        from camp.questions import check
        check(0, camp.OutcomeUnknown())
        for code, raised in ((1, camp.Closed), (2, camp.OutcomeUnknown), *((it, camp.Unexpected) for it in (3, 4, 5, -1))):
            self.assertRaises(raised, check, code, camp.OutcomeUnknown())
        self.assertIsInstance(camp.errors.error_of(["memory"]), camp.OutOfMemory)
        self.assertEqual((camp.OutcomeUnknown().executed, camp.OutcomeUnknown("out of memory", 7).executed), (None, 7))
        for raised in (camp.OutOfMemory, camp.OutcomeUnknown):
            self.assertTrue(issubclass(raised, camp.Error) and issubclass(raised, MemoryError))

    def test_an_answer_of_another_form_is_unexpected(self):
        forms = ((camp.answers.read_changes, b"edit f 1\n+a\n-b\nend\n"), (camp.answers.read_changes, b"edit f 1\n+a\n"),
                 (camp.answers.read_changes, b"what\n"), (camp.answers.read_conflicts, b"a\n"), (camp.answers.read_history, b"1 2\n"),
                 (camp.answers.read_annotated, b"a b\n"), (camp.answers.read_marks, b"conflict 1 1\n=a\n"), (camp.answers.read_marks, b"what\n"),
                 (lambda answer: camp.answers.read_tree(answer, 1), b"file f x\n"), (lambda answer: camp.answers.read_outcome(1, answer), b"conflicts 1\n"))
        for read, lines in forms:
            with self.subTest(lines=lines):
                self.assertRaises(camp.Unexpected, read, camp.answers.Answer(lines))

    def test_what_is_closed_stays_so(self):
        repository = two_branches()
        view = repository.view()
        other = view.again()
        for one in (repository, repository, view, view):
            one.close()
        for call in (lambda: repository.names("main"), lambda: view.tree("main"), repository.view, view.again):
            self.assertRaises(camp.Closed, call)
        self.assertEqual(other.tree("main"), {"f": [b"first"]})
        del other
        gc.collect()

    def test_a_repository_without_the_library_says_what_to_run(self):
        with tempfile.TemporaryDirectory() as folder:
            def said(program):
                environment = {**os.environ, "CAMP_LIB_DIR": folder}
                return subprocess.run([sys.executable, "-c", program], cwd=FOLDER, env=environment, stderr=subprocess.PIPE, text=True).stderr

            self.assertEqual(said("import camp; camp.diff('f', None, 'x')"), "")
            missing = said("import camp; camp.Repository()")
            self.assertEqual(missing.splitlines()[-1], said("import camp; camp.require_library()").splitlines()[-1])
            self.assertRegex(missing, "ImportError: libcamp.so is not in .*: run clients/build .* or set CAMP_LIB_DIR")
            self.assertNotIn("Exception ignored", missing)
            with open(os.path.join(folder, "libcamp.so"), "wb") as file:
                file.write(b"no library")
            self.assertRegex(said("import camp; camp.Repository()"), "ImportError: .*libcamp.so can't be loaded")


class Pictures(unittest.TestCase):
    def test_a_branch_is_drawn(self):
        with two_branches() as repository:
            repository.pull("other", "main")
            repository.record("main", "alone", [Add("g")])
            with repository.view() as view:
                for of in (repository, view):
                    whole, unresolved, part = of.picture("main"), of.picture("main", only_open=True), of.picture("main", ["alone"])
                    self.assertIn("main: 4 patches, 1 conflict, 1 unresolved", whole)
                    self.assertIn("english and german: unresolved conflict", whole)
                    self.assertEqual(["alone" in it for it in (whole, unresolved, part)], [True, False, True])
                    self.assertNotIn("german", part)
                self.assertRaises(camp.NoBranch, view.picture, "none")
                self.assertRaises(camp.NoPatch, view.picture, "main", ["none"])
                self.assertRaises(TypeError, view.picture, "main", "alone")


class WhatIfs(unittest.TestCase):
    def test_some_files_of_a_tree_are_read_alone(self):
        with two_branches() as repository:
            # Lines that look like the heads of files, and names of patches like the head of the tree.
            lines = [b"file f 9", b"tree 1", b"", b"=file g 1"]
            repository.record("other", "tree", [Add("g"), Edit("g", 1, [], lines), Add("a"), Add("gg")])
            repository.record("main", "zone", [Add("g")])
            whole = repository.whatif.pull("other", "main")
            self.assertEqual(whole.opened, [("english", "german"), ("tree", "zone")])
            for paths in ([], ["f"], ["g", "none", "a"], ["a", "f", "g", "gg"], [":"]):
                some = repository.whatif.pull("other", "main", paths=paths)
                self.assertEqual(some, whole._replace(tree={path: whole.tree[path] for path in paths if path in whole.tree}))
            self.assertEqual(repository.whatif.pull("main", "other", ["english"], paths=["g"]).tree, {"g": lines})
            self.assertRaises(camp.Depends, repository.whatif.obliterate, "main", ["start"])
            self.assertRaises(camp.NothingToDo, repository.whatif.pull, "main", "other", [], paths=["g"])


class Views(unittest.TestCase):
    def test_a_conflict_is_seen_and_resolved(self):
        with two_branches() as repository, repository.view() as before:
            repository.pull("other", "main")
            self.assertEqual(repository.side("main", "german"), [Edit("f", 1, ["one"], ["erstens"])])
            hunk = Hunk([b"one"], [HunkSide("english", [b"first"]), HunkSide("german", [b"erstens"])])
            with repository.view() as view:
                self.assertEqual(view.marks("main", "f"), [hunk])
            repository.record("main", "decided", repository.side("main", "german"))
            self.assertEqual((repository.open("main"), repository.file("main", "f")), ([], [b"erstens"]))
            self.assertEqual(before.file("main", "f"), [b"first"])

    def test_a_view_answers_questions_alone(self):
        with two_branches() as repository, repository.view() as view:
            for text in ("record main x add x\n", "branch x main\n", "pull other main\n", "obliterate main english\n", "history\n", "keep\n"):
                self.assertEqual(view.ask(text), b"fault 1 not asked of a view\n")
            with self.assertRaises(camp.NoPatch) as caught:
                view.needs("main", ["german"])
            self.assertEqual((caught.exception.patch, caught.exception.why), ("german", ""))

    def test_one_writer_and_readers_in_threads(self):
        wrong = []

        def read(view, count):
            with view, view.again() as again:
                for _ in range(50):
                    if len(view.names("main")) != count or len(again.tree("main")) != count:
                        wrong.append(count)

        with Repository() as repository:
            readers = []
            for count in range(20):
                readers.append(threading.Thread(target=read, args=(repository.view(), count)))
                readers[-1].start()
                repository.record("main", "p%d" % count, [Add("f%d" % count)])
            for reader in readers:
                reader.join()
        self.assertEqual(wrong, [])

    def test_threads_share_a_repository(self):
        with Repository() as repository:
            def write(seat):
                for at in range(10):
                    repository.record("main", "p%d-%d" % (seat, at), [Add("f%d-%d" % (seat, at))])
                    with_refusal(seat)

            def with_refusal(seat):
                try:
                    repository.branch("main", "main")
                except camp.BranchExists as error:
                    assert error.why.startswith("refused 5 main\n")

            threads = [threading.Thread(target=write, args=(seat,)) for seat in range(4)]
            for thread in threads:
                thread.start()
            for thread in threads:
                thread.join()
            self.assertEqual([call.number for call in repository.history()], list(range(1, 41)))


if __name__ == "__main__":
    unittest.main(module=None, argv=[sys.argv[0], "discover", "-s", FOLDER])
