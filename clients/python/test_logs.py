"""Tests SqliteLog, RememberedLog, snapshots and Shared over them: `python3 -m unittest test_logs`, in this folder."""

import contextlib
import fcntl
import os
import sqlite3
import tempfile
import threading
import time
import unittest
import unittest.mock

from camp import Add, Edit, NoBranch, PatchExists, TooLarge
from camp.logs import TITLE, AppendOutcome, Away, Damaged, Foreign, RememberedLog, SqliteLog, open_log, title_with
from camp.shared import NOT_READ, LogRefused, Shared, Stopped, turn
from camp.snapshots import BadSnapshot, read_snapshot, write_snapshot


class Sqlite(unittest.TestCase):
    def setUp(self):
        self.folder = tempfile.TemporaryDirectory()
        self.path = os.path.join(self.folder.name, "log.db")
        self.log = SqliteLog(self.path)

    def tearDown(self):
        self.log.close()
        self.folder.cleanup()

    def test_a_tag_is_appended_once(self):
        self.assertIs(self.log.append("s/1", b"one"), AppendOutcome.APPENDED)
        with contextlib.closing(SqliteLog(self.path)) as other:
            self.assertIs(other.append("s/1", b"other"), AppendOutcome.TAKEN)
        self.assertEqual(self.log.read(0), [TITLE, b"one"])
        self.assertEqual(self.log.length(), 2)

    def test_a_text_is_asked_and_its_calls_go_to_the_log(self):
        with Shared(self.log) as shared, contextlib.closing(SqliteLog(self.path)) as log, Shared(log) as other:
            shared.sync()
            text = b"# first\n record  main start group\n\tadd f\n# a comment\nedit f 1\n+done\nend\n done \nnames main\nrecord main start add g\nwhy"
            answer = shared.ask(text).split(b"\n")
            self.assertEqual(answer[:4], [b"ok 1", b"names 1", b"start", b"refused 6 start"])
            self.assertIn(b">record main start add g", answer)
            self.assertEqual((other.sync(), other.file("main", "f")), (1, [b"done"]))
            self.assertIn(b"record main start group\nadd f\nedit f 1\n+done\nend\ndone\n", self.log.read(1)[0])
            self.assertEqual(shared.ask(b"pull main none\n"), b"refused 4 none\n")
            self.assertEqual(self.log.length(), 2)
            self.assertTrue(shared.settle())

    def test_what_goes_to_the_log_is_canonical(self):
        with Shared(self.log) as shared:
            shared.sync()
            text = b"record main a group\nadd f\nedit  f 001\n+edit f 01\nend\ndone\nrecord main edit edit f 02\n+b\nend\nbranch 01 main\nobliterate 01 edit\n"
            self.assertEqual(shared.ask(text), b"ok 1\nok 2\nok 3\nok 4\n")
            written = b"record main a group\nadd f\nedit f 1\n+edit f 01\nend\ndone\nrecord main edit edit f 2\n+b\nend\nbranch 01 main\nobliterate 01 edit\n"
            self.assertEqual(b"".join(it.partition(b"\n")[2] for it in self.log.read(1)), written)

    def test_a_log_has_the_limits_of_its_title(self):
        path = os.path.join(self.folder.name, "limits.db")
        for title, branches in ((title_with(3, 2), 2), (title_with(9, 9), 2)):
            with contextlib.closing(open_log("sqlite:" + path, title)) as log, Shared(log) as shared:
                shared.sync()
                if branches > len(shared.branches()):
                    shared.branch("other", "main")
                    shared.record("main", "start", [Add("f"), Add("g"), Add("h")])
                self.assertRaises(TooLarge, shared.branch, "more", "main")
                self.assertRaises(TooLarge, shared.record, "main", "more", [Add("i")])
        for title in (b"camp log 1 catches 0 branches 1\n", b"camp log 1 catches 16777217 branches 1\n", b"camp log 2\n"):
            with contextlib.closing(open_log("sqlite:{}{}".format(path, len(title)), title)) as log, Shared(log) as shared:
                self.assertRaises(Stopped, shared.sync)

    def test_all_read_one_order(self):
        def append(seat):
            log = SqliteLog(self.path)
            for number in range(20):
                while log.append("{}/{}".format(seat, number), b"%d %d" % (seat, number)) is AppendOutcome.UNKNOWN:
                    pass
            log.close()
        threads = [threading.Thread(target=append, args=(seat,)) for seat in range(4)]
        for thread in threads:
            thread.start()
        for thread in threads:
            thread.join()
        entries = self.log.read(0)
        with contextlib.closing(SqliteLog(self.path)) as other:
            self.assertEqual(entries, other.read(0))
        for seat in range(4):
            own = [entry for entry in entries if entry.startswith(b"%d " % seat)]
            self.assertEqual(own, [b"%d %d" % (seat, number) for number in range(20)])

    def test_who_waits_writes_before_who_has_just_written(self):
        def wait():
            with contextlib.closing(SqliteLog(self.path)) as log:
                while log.append("w/%d" % at, b"waits") is AppendOutcome.UNKNOWN:
                    pass
        with open(self.path + "-queue", "rb") as queue:
            for at in range(20):
                self.log._base().execute("BEGIN IMMEDIATE")
                waiter = threading.Thread(target=wait)
                waiter.start()
                with contextlib.suppress(BlockingIOError):
                    while fcntl.flock(queue, fcntl.LOCK_EX | fcntl.LOCK_NB) is None:
                        fcntl.flock(queue, fcntl.LOCK_UN)
                        time.sleep(0.001)
                self.log._base().execute("COMMIT")
                while self.log.append("s/%d" % at, b"writes again") is AppendOutcome.UNKNOWN:
                    pass
                waiter.join()
        # Where it waited for too long in between it has lost its turn.
        entries = self.log.read(1)
        self.assertGreater(sum(entries[at] == b"waits" for at in range(0, 40, 2)), 10)

    def test_a_process_that_was_stopped_in_its_turn_stops_nobody(self):
        with open(self.path + "-queue", "rb") as queue:
            fcntl.flock(queue, fcntl.LOCK_EX)
            self.assertIs(self.log.append("s/1", b"one"), AppendOutcome.APPENDED)

    def test_what_is_interrupted_is_rolled_back(self):
        def interrupt(*_):
            raise KeyboardInterrupt
        self.log._base().create_function("interrupt", 0, interrupt)
        self.log._base().execute("CREATE TEMP TRIGGER stop AFTER INSERT ON main.entries BEGIN SELECT interrupt(); END")
        self.assertIs(self.log.append("s/1", b"one"), AppendOutcome.UNKNOWN)
        self.log._base().execute("DROP TRIGGER stop")
        with contextlib.closing(SqliteLog(self.path)) as other:
            self.assertIs(other.append("s/1", b"one"), AppendOutcome.APPENDED)

    def test_a_removed_entry_shows(self):
        for number in range(4):
            self.log.append("s/{}".format(number), b"x")
        with contextlib.closing(sqlite3.connect(self.path)) as base:
            base.execute("DELETE FROM entries WHERE at = 2")
            base.commit()
        self.assertEqual(self.log.read(0), [TITLE, b"x"])
        with self.assertRaises(Damaged) as damaged:
            self.log.read(2)
        self.assertEqual(damaged.exception.index, 2)

    def test_a_moved_entry_shows(self):
        for number in range(6):
            self.log.append("s/{}".format(number), b"%d" % number)
        with contextlib.closing(sqlite3.connect(self.path)) as base:
            for old, new in ((2, -1), (4, 2), (-1, 4)):
                base.execute("UPDATE entries SET at = ? WHERE at = ?", (new, old))
            base.commit()
        self.assertEqual(self.log.read(0), [TITLE, b"0"])
        for index in (2, 3, 4, 5):
            self.assertRaises(Damaged, self.log.read, index)
        self.assertEqual(self.log.read(6), [b"5"])

    def test_entries_of_an_older_table_are_read(self):
        with contextlib.closing(sqlite3.connect(self.path)) as base:
            base.executemany("INSERT INTO entries VALUES (?, ?, ?)", [(1, "s/1", b"x" + b"8cdc1683"), (2, "s/2", b"y\n")])
            base.commit()
        self.log.append("s/3", b"z")
        self.assertEqual(self.log.read(0), [TITLE, b"x", b"y\n", b"z"])

    def test_a_file_that_is_full_refuses(self):
        self.log._base().execute("PRAGMA max_page_count = 1")
        self.assertIs(self.log.append("s/1", b"x" * 100_000), AppendOutcome.REFUSED)
        self.assertEqual(self.log.length(), 1)

    def test_a_file_of_another_program_is_foreign(self):
        text, other = (os.path.join(self.folder.name, name) for name in ("text", "other"))
        with open(text, "wb") as file:
            file.write(b"no database at all, but a text")
        with contextlib.closing(sqlite3.connect(other)) as base:
            base.execute("CREATE TABLE other (it)")
        for path in (text, other):
            with open(path, "rb") as file:
                before = file.read()
            with self.assertRaises(Foreign):
                open_log("sqlite:" + path)
            with open(path, "rb") as file:
                self.assertEqual(file.read(), before)

    def test_what_was_read_is_remembered(self):
        self.log.append("s/1", b"one")
        path = os.path.join(self.folder.name, "seen.db")
        with contextlib.closing(RememberedLog(path, open_log("sqlite:" + self.path))) as log:
            self.assertEqual(log.read(0), [TITLE, b"one"])
        with contextlib.closing(RememberedLog(path)) as log:
            self.assertEqual((log.read(0), log.read(2), log.length()), ([TITLE, b"one"], [], 2))
            with self.assertRaises(Away):
                log.append("s/2", b"two")
        with contextlib.closing(SqliteLog(os.path.join(self.folder.name, "another.db"))) as another:
            with self.assertRaises(Foreign):
                RememberedLog(path, another)

    def test_what_was_changed_of_what_was_read_is_read_again(self):
        path = os.path.join(self.folder.name, "seen.db")
        entries = [TITLE] + [b"%d" % number for number in range(6)]
        for number, text in enumerate(entries[1:]):
            self.log.append("s/%d" % number, text)
        for change in ("UPDATE entries SET text = x'61' WHERE at = 3", "DELETE FROM entries WHERE at = 2", "UPDATE entries SET text = 'a' WHERE at = 6",
                       "UPDATE entries SET text = (SELECT text FROM entries WHERE at = 1) WHERE at = 4"):
            with contextlib.closing(RememberedLog(path, open_log("sqlite:" + self.path))) as log:
                self.assertEqual((log.fetch(), log.read(0), log.entry(3)), (7, entries, b"2"))
            with contextlib.closing(sqlite3.connect(path)) as base:
                base.execute(change)
                base.commit()
            with contextlib.closing(RememberedLog(path)) as log:
                at = len(log.read(0))
                self.assertEqual(log.read(0), entries[:at])
                self.assertRaises(Damaged, log.read, at)
            with contextlib.closing(RememberedLog(path, open_log("sqlite:" + self.path))) as log:
                self.assertEqual(log.read(0) + log.read(at), entries)


class SharedRepository(unittest.TestCase):
    def setUp(self):
        self.folder = tempfile.TemporaryDirectory()
        self.address = "sqlite:" + os.path.join(self.folder.name, "log.db")
        self.logs, self.shares = [], []

    def tearDown(self):
        for one in self.shares + self.logs:
            one.close()
        self.folder.cleanup()

    def share(self):
        self.logs.append(open_log(self.address))
        self.shares.append(Shared(self.logs[-1]))
        self.shares[-1].sync()
        return self.shares[-1]

    def test_all_have_one_history_with_its_notes(self):
        anna, ben = self.share(), self.share()
        self.assertEqual(anna.record("main", "start", [Add("f"), Edit("f", 1, [], ["one"])], "a note\n\nof lines"), 1)
        self.assertEqual(ben.branch("ben", "main"), 2)
        self.assertEqual((anna.sync(), anna.branches(), anna.entries), (2, ["main", "ben"], 3))
        for one in (anna, ben, self.share()):
            self.assertEqual((one.tree("ben"), one.notes), ({"f": [b"one"]}, {"start": b"a note\n\nof lines"}))
        self.assertEqual(anna.history(), ben.history())

    def test_a_refusal_is_that_of_the_place(self):
        anna, ben = self.share(), self.share()
        anna.record("main", "p", [Add("f")])
        with self.assertRaises(PatchExists):
            ben.record("main", "p", [Add("g")])
        with self.assertRaises(NoBranch):
            ben.pull("nowhere", "main")
        self.assertEqual((ben.sync(), ben.tree("main")), (1, {"f": []}))

    def test_several_calls_go_into_one_entry(self):
        anna = self.share()
        calls = [(b"branch b%d main\n" % (number % 250), b"") for number in range(255)]
        self.assertEqual(anna.write_all(calls)[249:252], [b"ok 250\n", b"refused 5 b0\n", b"refused 5 b1\n"])
        self.assertEqual(anna.entries, 2)

    def test_a_repository_catches_up_in_steps(self):
        anna = self.share()
        calls = [(b"record main p%d add f%d\n" % (at, at), b"note %d" % at) for at in range(5)]
        with unittest.mock.patch("camp.shared.AT_ONCE", 2):
            anna.write_all(calls)
            self.assertEqual((len(anna.notes), anna.notes["p4"], len(anna.history())), (5, b"note 4", 5))
            anna.write_all([(b"record main p0 add g\n", b"refused"), (b"record main p5 add g\n", b"")])
            self.assertEqual((anna.names("main"), anna.accepted), (["p%d" % at for at in range(6)], 6))
        self.assertEqual((anna.notes, anna.tree("main")), (self.share().notes, self.share().tree("main")))

    def test_questions_are_answered_while_another_thread_writes(self):
        anna, seen = self.share(), []
        writer = threading.Thread(target=lambda: [anna.branch("b%d" % at, "main") for at in range(40)])
        writer.start()
        while writer.is_alive():
            seen.append(anna.branches())
        self.assertEqual(anna.branches(), ["main"] + ["b%d" % at for at in range(40)])
        self.assertTrue(all(one == anna.branches()[:len(one)] for one in seen))

    def test_a_question_follows_what_was_seen(self):
        anna, ben = self.share(), self.share()
        self.assertEqual(anna.record("main", "p", [Add("f")]), 1)
        member = ben._member
        for at_least in (0, 1, 2):
            member.ask(b"names main\n", at_least, at_least)
        while len(member.answers) < 3:
            turn(member, self.logs[1])
        self.assertEqual([it[:2] for it in member.answers], [(0, b"names 0\n"), (1, b"names 1\np\n"), (2, NOT_READ)])

    def test_a_process_goes_on_under_a_new_seat(self):
        anna = self.share()
        anna.record("main", "p", [Add("f")])
        self.logs.append(open_log(self.address))
        anna.go_on_with(self.logs[-1])
        anna.record("main", "q", [Add("g")])
        heads = [entry.split(b"\n")[0].split() for entry in self.logs[-1].read(1)]
        self.assertEqual([(it[0], it[2]) for it in heads], [(b"entry", b"1"), (b"entry", b"1")])
        self.assertNotEqual(heads[0][1], heads[1][1])
        anna._member.ask(b"branch b main\n")
        self.assertFalse(anna._member._decides.take_seat("0" * 32))

    def test_a_full_log_refuses_and_goes_on_when_there_is_room(self):
        anna = self.share()
        base = self.logs[0]._base()
        base.execute("PRAGMA max_page_count = 1")
        with self.assertRaises(LogRefused):
            anna.record("main", "p", [Add("f"), Edit("f", 1, [], ["x" * 999] * 60)])
        base.execute("PRAGMA max_page_count = 1000000")
        self.assertEqual((anna.sync(), anna.record("main", "p", [Add("f")]), anna.names("main")), (0, 1, ["p"]))

    def test_a_log_that_was_cut_is_damaged(self):
        anna, ben = self.share(), self.share()
        anna.record("main", "p", [Add("f")])
        ben.sync()
        with contextlib.closing(sqlite3.connect(self.address.partition(":")[2])) as base:
            base.execute("DELETE FROM entries WHERE at = 1")
            base.commit()
        for one in (anna, ben):
            with self.assertRaises(Damaged) as damaged:
                one.sync()
            self.assertEqual((damaged.exception.index, one.names("main")), (1, ["p"]))

    def test_a_foreign_entry_stops(self):
        anna = self.share()
        anna.record("main", "p", [Add("f")])
        self.logs[0].append("x", b"something else\n")
        with self.assertRaises(Stopped) as stopped:
            anna.sync()
        self.assertEqual((stopped.exception.index, anna.names("main")), (2, ["p"]))

    def snapshot(self):
        path = os.path.join(self.folder.name, "snapshot")
        return path, write_snapshot(self.logs[0], path)

    def test_a_snapshot_stands_for_the_log(self):
        anna, ben = self.share(), self.share()
        anna.record("main", "start", [Add("f")], "a note")
        anna.branch("other", "main")
        ben.sync()
        ben.record("other", "more", [Add("g")])
        # Its call is refused where it stands.
        refused = b"entry eeeeeeeeeeeeeeeeeeeeeeeeeeeeeeee 1\nrecord main start add h\n"
        self.logs[0].append("e/1", refused)
        anna.sync()
        anna.pull("other", "main")
        path, snapshot = self.snapshot()
        self.assertEqual([at for at, _ in snapshot.entries], [2, 3, 4, 5])
        self.assertEqual(snapshot.entries[0][1].split(b"\n", 1)[1], b"#note a note\nrecord main start add f\nbranch other main\n")
        self.assertEqual(read_snapshot(path), snapshot)
        # It does not count again.
        self.logs[0].append("e/1, again", refused)
        self.logs.append(open_log(self.address))
        self.shares.append(Shared(self.logs[-1], snapshot=path))
        new = self.shares[-1]
        self.assertEqual((new.entries, new.accepted), (6, 4))
        self.assertEqual((new.record("main", "last", [Add("i")]), anna.sync(), ben.sync()), (5, 5, 5))
        for one in (new, self.share()):
            self.assertEqual((one.entries, one.history(), one.notes, one.tree("main")), (8, anna.history(), anna.notes, anna.tree("main")))

    def test_a_snapshot_of_a_log_without_calls(self):
        self.share()
        path, snapshot = self.snapshot()
        with Shared(self.logs[0], snapshot=path) as shared:
            self.assertEqual((snapshot.entries, shared.entries, shared.record("main", "p", [Add("f")])), ([], 1, 1))

    def test_a_snapshot_that_was_changed_or_is_of_another_log_is_refused(self):
        anna = self.share()
        anna.record("main", "p", [Add("f")])
        path, _ = self.snapshot()
        with open(path, "rb") as file:
            whole = file.read()
        for at in (0, len(whole) // 2, len(whole) - 1):
            for changed in (whole[:at], whole[:at] + bytes([whole[at] ^ 1]) + whole[at + 1:]):
                with open(path, "wb") as file:
                    file.write(changed)
                self.assertRaises(BadSnapshot, read_snapshot, path)
        with open(path, "wb") as file:
            file.write(whole)
        with contextlib.closing(SqliteLog(os.path.join(self.folder.name, "another.db"))) as another:
            self.assertRaises(BadSnapshot, Shared, another, snapshot=path)
            with Shared(another) as shared:
                shared.record("main", "p", [Add("f")])
            self.assertRaises(BadSnapshot, Shared, another, snapshot=path)
        self.logs[0].append("x", b"something else\n")
        self.assertRaises(BadSnapshot, self.snapshot)

    def test_what_is_executed_here_is_not_in_the_log(self):
        anna = self.share()
        self.assertEqual(anna.execute_here([(b"record main p add f\n", b"mine"), (b"branch a nowhere\n", b"")]), [b"ok 1\n", b"refused 4 nowhere\n"])
        self.assertEqual((anna.names("main"), anna.notes, self.share().names("main")), (["p"], {"p": b"mine"}, []))
        with self.assertRaises(Stopped):
            anna.record("main", "q", [Add("g")])

    def test_what_is_executed_ahead_shows_what_the_log_will_have(self):
        anna, calls = self.share(), [(b"record main p add f\n", b"mine"), (b"branch b main\n", b""), (b"record b q add g\n", b"more")]
        self.assertEqual(anna.execute_ahead([call for call, _ in calls[:2]]), [b"ok 1\n", b"ok 2\n"])
        self.assertEqual((anna.names("b"), anna.accepted, anna.notes, anna.is_ahead, anna.is_settled), (["p"], 0, {}, True, False))
        self.assertEqual(anna.write_all(calls), [b"ok 1\n", b"ok 2\n", b"ok 3\n"])
        self.assertEqual((anna.is_ahead, anna.is_settled, anna.accepted, anna.notes), (False, True, 3, {"p": b"mine", "q": b"more"}))
        self.assertEqual((self.share().history(), anna.names("b")), (anna.history(), ["p", "q"]))

    def test_what_the_log_has_before_is_shown_in_place_of_what_was_ahead(self):
        anna, ben = self.share(), self.share()
        anna.record("main", "start", [Add("f"), Edit("f", 1, [], ["a"])], "first")
        calls = [(b"record main p edit f 1\n-a\n+b\nend\n", b"mine"), (b"branch b main\n", b"")]
        for others in ([(b"record main q edit f 1\n-a\n+c\nend\n", b"his")], [(b"branch b nowhere\n", b"")]):
            anna.execute_ahead([call for call, _ in calls])
            ben.sync()
            ben.write_all(others)
            answers = anna.write_all(calls)
            self.assertEqual((anna.is_settled, anna.history(), anna.tree("main"), anna.notes), (True, *self.shown(self.share())))
            calls = [(b"record main r add g\n", b"later"), (b"branch c main\n", b"")]
        self.assertEqual(answers, [b"ok 4\n", b"ok 5\n"])

    @staticmethod
    def shown(one):
        return one.history(), one.tree("main"), one.notes

    def test_what_is_refused_ahead_is_not_executed(self):
        anna = self.share()
        self.assertEqual(anna.execute_ahead([b"branch b nowhere\n", b"branch c main\n"]), [b"refused 4 nowhere\n"])
        self.assertEqual((anna.is_settled, anna.branches()), (True, ["main"]))

    def test_what_is_ahead_may_be_executed_here(self):
        anna = self.share()
        anna.execute_ahead([b"branch b main\n"])
        self.assertEqual(anna.execute_here([(b"branch b main\n", b""), (b"branch c b\n", b"")]), [b"ok 1\n", b"ok 2\n"])
        self.assertEqual((anna.branches(), anna.accepted), (["main", "b", "c"], 2))


if __name__ == "__main__":
    unittest.main()
