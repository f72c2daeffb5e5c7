"""The journal of a workspace."""
import errno
import os
from unittest import mock

from apl_terminal import journal
from apl_terminal.journal import Busy, Foreign, Journal, Typed, read, set_aside
from tests.front_end import OfTerminal


class Records(OfTerminal):
    def setUp(self) -> None:
        super().setUp()
        self.path = str(self.folder / ".ledger.apl-journal")
        self.journal = Journal(self.path)
        self.journal.begin("ab")

    def data(self) -> bytes:
        """Returns what the file holds."""
        with open(self.path, "rb") as file:
            return file.read()

    def test_what_was_noted_is_read(self) -> None:
        self.journal.typed("A←'É\"'")
        self.journal.ended(None)
        self.journal.typed("LOOP")
        self.journal.ended(12345)
        self.journal.typed("NO")
        self.journal.undone()
        self.journal.typed("LAST")
        past = read(self.data())
        self.assertEqual(past, self.journal.past)
        self.assertEqual(past.lines, [Typed("A←'É\"'", True), Typed("LOOP", True, 12345), Typed("LAST")])
        self.assertEqual((past.base, past.workspace, past.is_whole, past.is_empty), ("ab", None, True, False))

    def test_a_line_is_on_the_disk_before_it_runs(self) -> None:
        with mock.patch("os.fsync") as synced:
            self.journal.typed("A←1")
            self.assertEqual(synced.call_count, 1)
        self.assertIn("A←1", self.data().decode())

    def test_a_workspace_takes_the_place_of_lines(self) -> None:
        self.journal.typed("A←1")
        self.journal.stands(b'{"io":1}')
        self.journal.typed("B←1")
        past = read(self.data())
        self.assertEqual((past.workspace, past.lines), (b'{"io":1}', [Typed("B←1")]))

    def test_it_goes_on_behind_what_it_has(self) -> None:
        self.journal.typed("A←1")
        self.journal.release()
        again = Journal(self.path)
        again.ended(None)
        again.typed("B←1")
        self.assertEqual(read(self.data()).lines, [Typed("A←1", True), Typed("B←1")])

    def test_it_begins_with_lines_and_a_workspace(self) -> None:
        self.journal.begin("cd", [Typed("∇F", True), Typed("1", True, 7)], b'{"io":0}')
        past = read(self.data())
        self.assertEqual((past, past.base, past.lines[1].steps), (self.journal.past, "cd", 7))
        self.assertEqual(os.listdir(self.folder), [".ledger.apl-journal"])

    def test_each_cut(self) -> None:
        for line in ("A←1", "B←2", "C←3"):
            self.journal.typed(line)
            self.journal.ended(None)
        data = self.data()
        head = data.index(b"\n") + 1
        for size in range(head, len(data)):
            past = read(data[:size])
            self.assertTrue(past.is_whole)
            self.assertEqual([it.line for it in past.lines], ["A←1", "B←2", "C←3"][:len(past.lines)])
            self.assertEqual(len(past.lines), data[:size].count(b'"}\n') - 1)
        for size in range(1, head):
            self.assertRaises(Foreign, read, data[:size])
        self.assertTrue(read(b"").is_empty)

    def test_each_damage(self) -> None:
        for line in ("A←1", "B←2"):
            self.journal.typed(line)
        data = self.data()
        head = data.index(b"\n") + 1
        for at in range(len(data)):
            damaged = data[:at] + bytes([data[at] ^ 1]) + data[at + 1:]
            if at < head - 1:
                self.assertRaises(Foreign, read, damaged)
            elif at >= head:
                past = read(damaged)
                self.assertEqual(past.lines, [Typed("A←1"), Typed("B←2")][:len(past.lines)])
                self.assertEqual(past.is_whole, damaged.count(b"\n") < 3 and len(past.lines) == 1, damaged)

    def test_records_that_are_none(self) -> None:
        for record in (b"[]", b"null", b'{"steps":1}', b'{"undone":true}', b'{"other":1}', b"{", b'"line"'):
            self.journal.begin("ab")
            self.journal.append(record)
            self.assertFalse(read(self.data()).is_whole, record)

    def test_what_is_no_journal(self) -> None:
        for data in (b"\n", b"text\n", b"00000000 {}\n", b"\x00" * 100, b'{"io":1}'):
            self.assertRaises(Foreign, read, data)

    def test_a_version_of_another_day(self) -> None:
        with mock.patch.object(journal, "VERSION", 2):
            self.assertRaises(Foreign, read, self.data())

    def test_one_terminal_has_it(self) -> None:
        self.assertRaises(Busy, Journal, self.path)
        self.journal.begin("cd")
        self.assertRaises(Busy, Journal, self.path)
        self.journal.release()
        Journal(self.path).release()

    def test_a_full_disk(self) -> None:
        self.journal.typed("A←1")
        before = self.data()
        full = OSError(errno.ENOSPC, "No space left on device")
        with mock.patch("os.pwrite", side_effect=full):
            self.journal.typed("B←2")
            self.journal.ended(None)
        self.assertEqual((self.journal.fault, self.data()), ("No space left on device", before))
        self.journal.typed("C←3")
        self.assertEqual((self.journal.fault, [it.line for it in read(self.data()).lines]), ("", ["A←1", "B←2", "C←3"]))

    def test_a_full_disk_after_saving(self) -> None:
        self.journal.typed("A←1")
        full = OSError(errno.ENOSPC, "No space left on device")
        with mock.patch("os.pwrite", side_effect=full):
            self.journal.begin("cd")
        self.assertEqual((self.journal.fault, self.data()), ("No space left on device", b""))
        self.journal.typed("B←2")
        self.assertEqual(read(self.data()).lines, [Typed("B←2")])
        self.assertEqual(os.listdir(self.folder), [".ledger.apl-journal"])

    def test_what_was_saved_before_a_kill(self) -> None:
        file = self.folder / "ledger"
        file.write_bytes(b"saved")
        self.journal.typed("A←1")
        self.journal.saving(journal.digest_of(str(file)) or "", str(file))
        self.assertTrue(read(self.data()).is_empty)
        file.write_bytes(b"before")
        self.assertEqual(read(self.data()).lines, [Typed("A←1")])

    def test_names_that_none_has(self) -> None:
        (self.folder / ".ledger.apl-journal-1").write_text("mine")
        self.assertEqual(set_aside(self.path), self.path + "-2")
        self.assertEqual((self.folder / ".ledger.apl-journal-1").read_text(), "mine")
