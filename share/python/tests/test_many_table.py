"""Rows that are taken and answered, in a SQLite file."""
import unittest
from unittest.mock import patch

from apl_many.answers import FINE, MEMORY, Answer
from apl_many.table import BYTES, Counts, Lost, TableError, Task, groups
from apl_many.tables import open_table
from tests.many import InFolder

ROWS = [(f"w{k}", b"%d" % k) for k in range(10)]
DONE = Answer(FINE, "2\n", b"{}", 0.5)
TAKE = "print('ready' if len(table.take({0})) == {0} else 'none', flush=True)\ninput()\n"


class Tables(InFolder):
    def test_load_keeps_what_is_there(self) -> None:
        table = self.table()
        self.assertEqual((table.load(ROWS[:4]), table.load(ROWS), table.load([("w0", b"other")])), (4, 6, 0))
        self.assertEqual([data for _, data in table.workspaces(table.take(1))], [b"0"])
        self.assertEqual(table.counts(), Counts([(None, 10)]))

    def test_take_and_finish(self) -> None:
        table = self.table()
        table.load(ROWS)
        tasks = table.take(3)
        self.assertEqual(list(table.workspaces(tasks)), list(zip(tasks, (b"0", b"1", b"2"))))
        table.finish([(tasks[0], DONE), (tasks[1], Answer(MEMORY))], "me")
        self.assertEqual([data for _, data in table.workspaces(table.take(2))], [b"2", b"3"])
        counts = table.counts()
        self.assertEqual((counts.all, counts.left, counts.fine, counts.others), (10, 8, 1, [(MEMORY, 1)]))
        self.assertEqual(table.others(5), [("w1", MEMORY)])
        self.assertEqual([(it.name, it.answer, it.worker) for it in table.answered()], [("w0", DONE, "me"), ("w1", Answer(MEMORY), "me")])

    def test_large_ones_are_read_alone(self) -> None:
        tasks = [Task(row, size) for row, size in enumerate((1, BYTES, BYTES - 1, 1, 1, 2 * BYTES, 5))]
        self.assertEqual([[it.row for it in some] for some in groups(tasks)], [[0], [1], [2, 3], [4], [5], [6]])
        self.assertEqual(list(groups([])), [])
        with patch("apl_many.table.BYTES", 2), patch("apl_many.table.MANY", 3):
            table = self.table()
            table.load(ROWS)
            tasks = table.take(10)
            self.assertEqual([data for _, data in table.workspaces(tasks)], [data for _, data in ROWS])
            table.finish([(it, DONE) for it in tasks], "me")
            self.assertEqual([it.name for it in table.answered()], [name for name, _ in ROWS])

    def test_the_first_answer_stays(self) -> None:
        table = self.table()
        table.load(ROWS[:1])
        [task] = table.take(1)
        table.finish([(task, DONE)], "one")
        table.finish([(task, Answer(MEMORY))], "two")
        self.assertEqual([(it.answer, it.worker) for it in table.answered()], [(DONE, "one")])

    def test_what_another_has_taken(self) -> None:
        table = self.table()
        table.load(ROWS)
        other = self.in_other_process(TAKE.format(4))
        self.assertEqual([it.row for it in table.take(3)], [5, 6, 7])
        table.give_back()
        self.assertEqual(len(table.take(100)), 6)
        other.kill()
        other.wait()
        self.assertEqual(len(table.take(100)), 10)

    def test_what_is_given_back_is_anothers(self) -> None:
        table = self.table()
        table.load(ROWS)
        [*first, last] = table.take(10)
        table.finish([(last, DONE)], "me")
        self.in_other_process(TAKE.format(9))
        self.assertEqual(table.take(10), [])
        self.assertFalse(table.is_done())
        self.assertEqual(len(first), 9)

    def test_what_is_answered_before_it_is_locked_isnt_taken(self) -> None:
        table, other = self.table(), self.table()
        table.load(ROWS[:2])
        tasks = other.take(2)
        lock = table._lock

        def late(row: int) -> bool:
            """Locks a row after another has answered it."""
            if row == 1:
                other.finish([(tasks[0], DONE)], "other")
            return lock(row)

        with patch.object(table, "_lock", late):
            self.assertEqual([it.row for it in table.take(2)], [2])

    def test_retry(self) -> None:
        table = self.table()
        table.load(ROWS[:3])
        table.finish(list(zip(table.take(3), (DONE, Answer(MEMORY), Answer(2)))), "me")
        self.assertTrue(table.is_done())
        self.assertEqual(table.retry(), 2)
        self.assertEqual([it.row for it in table.take(3)], [2, 3])

    def test_lines_are_agreed_on(self) -> None:
        table = self.table()
        self.assertIsNone(table.lines())
        self.assertEqual([table.agree(it) for it in ("A\nB", "A\nB", "A", "")], [True, True, False, False])
        self.assertEqual(table.lines(), "A\nB")
        self.assertTrue(self.table("another").agree("A"))

    def test_errors(self) -> None:
        for url, name in (("mysql://x/y", "t"), (str(self.folder / "none"), "t"), (str(self.folder / "none"), "a b"), ("x", "Table")):
            with self.assertRaises(TableError):
                open_table(url, name)
        (self.folder / "text").write_text("this is no database, but a text of some length")
        with self.assertRaises(TableError):
            open_table(str(self.folder / "text"), "t")
        self.table()
        with self.assertRaisesRegex(TableError, "there is no such table yet"), open_table(f"sqlite:///{self.folder}/many.db", "other") as table:
            table.counts()

    def test_a_busy_file_is_lost(self) -> None:
        table = self.table()
        table.load(ROWS)
        self.in_other_process("table._run('begin')\nprint('ready', flush=True)\ninput()\n")
        table._run("pragma busy_timeout = 50")
        with self.assertRaises(Lost):
            table.finish([(table.take(1)[0], DONE)], "me")
        self.assertEqual(table.counts().left, 10)

    def test_a_new_file_is_its_users_alone(self) -> None:
        self.table()
        self.assertEqual((self.folder / "many.db").stat().st_mode & 0o777, 0o600)


if __name__ == "__main__":
    unittest.main()
