"""The workspace that a terminal works on: what is typed, saved, opened, and played again."""
import errno
import os
import signal
import threading
from typing import Any
from unittest import mock

from apl import Died, Refused
from apl.commands import NotDone
from apl_terminal import places
from apl_terminal.telling import Gone
from apl_terminal.work import Work
from tests.front_end import OfTerminal, Said
from tests.support import LOOP, striking

LONG = "LOOP 10000000000"


class Lines(OfTerminal):
    def test_lines(self) -> None:
        work = self.work()
        self.assertEqual(self.typed(work, "2+3", "A←1 2 3", "A[4]"), ["5", "INDEX ERROR", "      A[4]", "       ^"])
        self.assertEqual(self.typed(work, "∇F", "1"), [])
        self.assertEqual((work.next_line, work.open_lines), (2, ["∇F", "1"]))
        self.assertEqual((self.typed(work, "∇", "F"), work.next_line, work.open_lines), (["1"], 0, []))

    def test_hints(self) -> None:
        for line, told in ((")SAFE", ")HELP lists the commands"), ("∇5", ")HELP HEADERS tells what one is"), (" ∇ ", "no definition is open"),
                           ("∇F[⎕]∇", "there is no such function: )FNS"), ("1÷0", ""),
                           ("’A’−\x01", "no character of the language: ’ (right single quotation mark), − (minus sign), U+0001; "
                                        ")HELP KEYS shows those that are")):
            work = self.work()
            self.typed(work, line)
            self.assertEqual(len(self.said(work).told), bool(told), line)
            self.assertIn(told, "".join(self.said(work).told))

    def test_hints_in_a_definition(self) -> None:
        work = self.work()
        self.assertEqual(self.typed(work, "∇F", "\t1"), ["CHARACTER ERROR"])
        self.assertEqual(self.said(work).told, ["no character of the language: tab; line 1 is still to be typed"])
        self.typed(work, "(", "∇")
        self.assertEqual(self.said(work).told[1:], ["the definition is refused, but its text is kept: )EDIT opens it"])

    def test_an_interrupt(self) -> None:
        work = self.work("ledger")
        self.typed(work, *LOOP)
        with striking(0.2, work.session.interrupt):
            self.assertEqual(self.typed(work, LONG)[0], "INTERRUPT")
        state = work.session.workspace()
        self.killed(work)
        self.assertEqual(self.work("ledger").session.workspace(), state)

    def test_ctrl_c(self) -> None:
        work = self.work()
        self.strikes(work)
        self.typed(work, *LOOP)
        threading.Timer(0.2, os.kill, (os.getpid(), signal.SIGINT)).start()
        self.assertEqual(self.typed(work, LONG)[0], "INTERRUPT")
        self.assertTrue(work.struck)
        work.struck = 0.0
        self.assertEqual(self.typed(work, "2+3"), ["5"])

    def strikes(self, work: Work) -> None:
        """Has Ctrl-C be what it is at a terminal."""
        self.addCleanup(signal.signal, signal.SIGINT, signal.signal(signal.SIGINT, work.strike))

    def test_ctrl_c_while_the_journal_is_written(self) -> None:
        work = self.work("ledger")
        self.strikes(work)
        self.typed(work, *LOOP, "A←1")
        with mock.patch("os.fsync", side_effect=lambda _: os.kill(os.getpid(), signal.SIGINT)):
            self.assertEqual(self.typed(work, LONG)[0], "INTERRUPT")
        state = work.session.workspace()
        self.killed(work)
        self.assertEqual(self.work("ledger").session.workspace(), state)

    def test_ctrl_c_while_it_saves(self) -> None:
        work = self.work("ledger")
        self.strikes(work)
        self.typed(work, "A←1")
        with mock.patch("os.fsync", side_effect=lambda _: os.kill(os.getpid(), signal.SIGINT)):
            work.save()
        work.save()
        self.assertEqual(self.said(work).told, [])

    def test_ctrl_c_twice_in_a_long_step(self) -> None:
        work = self.work()
        self.strikes(work)
        self.typed(work, "M←1000 1000⍴1", "A←5")
        timers = [threading.Timer(seconds, os.kill, (os.getpid(), signal.SIGINT)) for seconds in (0.2, 1.4)]
        for it in timers:
            it.start()
        self.typed(work, "M←M+.×M")
        for it in timers:
            it.join()
        if self.said(work).told:
            self.assertIn("It is begun again", self.said(work).told[0])
        work.struck = 0.0
        self.assertEqual(self.typed(work, "A", "⍴M"), ["5", "1000 1000"])

    def test_a_line_that_is_too_long(self) -> None:
        work = self.work("ledger")
        self.typed(work, "A←1", "A" * 2_001)
        self.assertEqual(self.said(work).told, ["not done: the line has over 2,000 bytes or a line feed"])
        self.killed(work)
        again = self.work("ledger")
        self.assertNotIn("AAA", self.said(again).asked[0])

    def test_memory_that_runs_out(self) -> None:
        work = self.work("ledger")
        self.typed(work, "A←1")
        with mock.patch.object(work.session, "run", side_effect=Refused("memory")):
            work.type("B←1")
        self.assertEqual(self.said(work).told, ["not done: out of memory"])
        self.killed(work)
        again = self.work("ledger")
        self.assertEqual((len(again.journal.past.lines), again.session.value("A")), (0, 1))

    def test_a_program_that_is_killed(self) -> None:
        work = self.work("ledger")
        self.typed(work, "A←1", "∇F", "1")
        work.session._pipe.process.kill()  # pylint: disable=protected-access
        self.typed(work, "2")
        self.assertIn("It is begun again", self.said(work).told[0])
        self.assertEqual(work.next_line, 2)
        self.assertEqual(self.typed(work, "∇", "F", "A"), ["1", "1"])
        self.killed(work)
        self.assertEqual(self.typed(self.work("ledger"), "F", "A"), ["1", "1"])

    def test_a_refused_definition(self) -> None:
        work = self.work()
        self.assertEqual(self.typed(work, "∇F", "'AB", "∇"), ["DEFN ERROR"])
        self.assertIn(")EDIT opens it", self.said(work).told[0])
        with open(places.draft(), encoding="utf-8") as file:
            self.assertEqual(file.read(), "F\n'AB\n")


class Saving(OfTerminal):
    def test_there_and_back(self) -> None:
        work = self.work()
        self.typed(work, "A←1")
        self.assertIn("ledger saved", work.save("ledger"))
        self.typed(work, "A←2")
        self.assertIn("ledger saved", work.save())
        work.close()
        self.assertEqual(sorted(os.listdir()), ["ledger", "state"])
        self.assertEqual(os.listdir("state/apl"), [])
        again = self.work("ledger")
        self.assertEqual((again.session.value("A"), self.said(again).asked), (2, []))

    def test_without_a_name(self) -> None:
        self.assertRaisesRegex(NotDone, "no name yet", self.work().save)

    def test_another_workspace_is_kept(self) -> None:
        work = self.work()
        (self.folder / "ledger").write_text("mine")
        self.assertRaisesRegex(NotDone, "is there already", work.save, "ledger")
        self.assertRaisesRegex(NotDone, "no folder", work.save, "none/ledger")
        work.rename("ledger")
        work.save()
        self.assertNotEqual((self.folder / "ledger").read_text(), "mine")

    def test_a_change_by_another(self) -> None:
        work = self.work()
        work.save("ledger")
        (self.folder / "ledger").write_text("mine")
        self.assertRaisesRegex(NotDone, "another program has changed the file; .SAVE NAME saves in another file", work.save)
        self.typed(work, "A←1")
        self.assertEqual((self.folder / "ledger").read_text(), "mine")
        work.save("other")

    def test_a_disk_that_is_full_from_the_start(self) -> None:
        with mock.patch("os.pwrite", side_effect=OSError(errno.ENOSPC, "No space left on device")):
            work = self.work("ledger")
            self.typed(work, "A←1", "A←2")
        self.typed(work, "A←3")
        self.assertEqual([it.split(" (")[0] for it in self.said(work).told], ["the journal can't be written", "the journal is written again"])
        self.killed(work)
        self.assertEqual(self.work("ledger").session.value("A"), 3)

    def test_no_folder_for_what_lasts(self) -> None:
        (self.folder / "state").write_text("")
        work = self.work()
        self.typed(work, "A←1")
        work.close()

    def test_a_full_disk(self) -> None:
        work = self.work()
        work.save("ledger")
        before = (self.folder / "ledger").read_bytes()
        self.typed(work, "A←1")
        with mock.patch("os.fsync", side_effect=OSError(errno.ENOSPC, "No space left on device")):
            self.assertRaisesRegex(NotDone, "No space left on device", work.save)
        self.assertEqual((self.folder / "ledger").read_bytes(), before)
        self.typed(work, "B←A")
        work.save()
        work.close()
        self.assertEqual(self.work("ledger").session.value("B"), 1)

    def test_a_definition_that_is_open(self) -> None:
        work = self.work()
        self.typed(work, "A←1", "∇F", "1")
        self.assertIn("without the definition", work.save("ledger"))
        self.typed(work, "2")
        self.killed(work)
        again = self.work("ledger")
        self.assertEqual(again.next_line, 3)
        self.assertEqual(self.typed(again, "∇", "F"), ["1", "2"])

    def test_links_and_modes(self) -> None:
        (self.folder / "far").mkdir()
        (self.folder / "link").symlink_to("far/ledger")
        work = self.work("link")
        work.save()
        self.assertEqual(os.listdir("far"), [".ledger.apl-journal", "ledger"])
        os.chmod("far/ledger", 0o640)
        self.typed(work, "A←1")
        work.save()
        self.assertEqual(os.stat("far/ledger").st_mode & 0o777, 0o640)

    def test_a_folder_that_may_not_be_written(self) -> None:
        work = self.work()
        self.typed(work, "A←1")
        work.save("ledger")
        work.close()
        with mock.patch("os.access", return_value=False):
            work = self.work("ledger")
            self.typed(work, "A←2")
            self.killed(work)
            self.assertEqual(self.work("ledger").session.value("A"), 2)
        self.assertEqual(sorted(os.listdir()), ["ledger", "state"])


class PlayedAgain(OfTerminal):
    def left(self, *lines: str) -> None:
        """Has a terminal be killed after some lines in the workspace ledger."""
        work = self.work("ledger")
        self.typed(work, *lines)
        self.killed(work)

    def test_each_prefix(self) -> None:
        lines = ["A←1 2 3", *LOOP, "∇Z←F N", "Z←A÷N", "∇", "F 2", "A←2", "→⎕LC", "∇G", "A"]
        plain = self.work()
        for count, line in enumerate(lines, 1):
            plain.type(line)
            self.left(*lines[:count])
            work = self.work("ledger")
            self.assertEqual((work.session.workspace(), work.next_line), (plain.session.workspace(), plain.next_line))
            work.journal.remove()

    def test_no(self) -> None:
        self.left("A←1")
        said = Said()
        said.answer = False
        work = self.work("ledger", said)
        self.assertEqual(work.session.names(), [])
        self.assertEqual(said.told, ["what was typed then stays in .ledger.apl-journal-1"])
        self.assertIn("A←1", (self.folder / ".ledger.apl-journal-1").read_text())
        work.close()
        self.assertEqual(self.said(self.work("ledger")).asked, [])

    def test_no_answer(self) -> None:
        self.left("A←1")
        said = Said()
        said.answer = None
        with self.assertRaises(Gone):
            self.work("ledger", said)
        self.assertIn("A←1", (self.folder / ".ledger.apl-journal").read_text())

    def test_it_goes_on(self) -> None:
        self.left("A←1")
        work = self.work("ledger")
        self.typed(work, "A←A+1")
        self.killed(work)
        self.assertEqual(self.work("ledger").session.value("A"), 2)

    def test_a_damaged_journal(self) -> None:
        self.left("A←1", "A←2")
        path = self.folder / ".ledger.apl-journal"
        data = path.read_bytes()
        path.write_bytes(data.replace("A←2".encode(), "A←3".encode()))
        work = self.work("ledger")
        self.assertIn("is damaged from there on; it is kept", self.said(work).asked[0])
        self.assertEqual((work.session.value("A"), len(work.journal.past.lines)), (1, 1))
        self.assertEqual((self.folder / ".ledger.apl-journal-1").read_bytes(), data.replace("A←2".encode(), "A←3".encode()))
        self.killed(work)
        self.assertEqual(self.work("ledger").session.value("A"), 1)

    def test_a_foreign_file(self) -> None:
        (self.folder / ".ledger.apl-journal").write_text("mine")
        work = self.work("ledger")
        self.assertIn("is no journal of this terminal", self.said(work).told[0])
        self.assertEqual((self.folder / ".ledger.apl-journal-1").read_text(), "mine")

    def test_a_workspace_that_another_changed(self) -> None:
        work = self.work("ledger")
        work.save()
        self.typed(work, "A←1")
        self.killed(work)
        other = self.work()
        self.typed(other, "B←1")
        other.save("other")
        os.rename("other", "ledger")
        work = self.work("ledger")
        self.assertIn("was changed since by another program", self.said(work).asked[0])
        self.assertEqual([it.name for it in work.session.names()], ["A", "B"])

    def test_two_terminals(self) -> None:
        self.work("ledger")
        with self.assertRaisesRegex(NotDone, "ledger is open in another terminal"):
            self.work("ledger")
        first, second = self.work(), self.work()
        self.assertNotEqual(first.journal.path, second.journal.path)

    def test_a_window_that_is_closed(self) -> None:
        work = self.work("ledger")
        self.typed(work, *LOOP)

        def close() -> None:
            work.is_closing = True

        threading.Timer(0.2, close).start()
        self.assertEqual(self.typed(work, LONG)[0], "INTERRUPT")
        state = work.session.workspace()
        work.close()
        again = self.work("ledger")
        self.assertEqual((again.session.workspace(), self.said(again).shown[-3:-1]), (state, self.said(work).shown[:2]))

    def test_an_interrupt_meanwhile(self) -> None:
        self.left(*LOOP, "LOOP 100000", "A←1")
        work = self.work()
        run = work.session.run

        def interrupted(line: str, *more: Any) -> Any:
            if line.startswith("LOOP"):
                work.strike()
                return run(line, 1_000)
            return run(line, *more)

        with mock.patch("apl.Session.run", side_effect=interrupted):
            work.open("ledger")
        self.assertIn("1 lines are not played again", self.said(work).told[-2])
        state = work.session.workspace()
        self.killed(work)
        self.assertEqual(self.work("ledger").session.workspace(), state)
        self.assertIn("A←1", (self.folder / ".ledger.apl-journal-1").read_text())

    def test_what_came_to_nothing_is_not_kept(self) -> None:
        work = self.work()
        self.typed(work, "2+3", "A←1", ")ERASE A")
        work.close()
        self.assertEqual((os.listdir("state/apl"), self.said(work).told), ([], []))

    def test_a_session_without_a_name(self) -> None:
        work = self.work()
        self.typed(work, "A←1")
        work.close()
        self.assertIn("1 line since the beginning: not saved, but kept", self.said(work).told[0])
        self.assertEqual(self.work().session.value("A"), 1)

    def test_a_long_line_is_not_made_again(self) -> None:
        with mock.patch("apl_terminal.work.LONG", 0):
            self.left("A←1")
        work = self.work("ledger")
        self.assertEqual((work.session.value("A"), work.journal.past.lines), (1, []))

    def test_a_program_that_dies_of_a_line_each_time(self) -> None:
        work = self.work()
        self.typed(work, "A←1")
        with mock.patch("apl.Session.run", side_effect=Died("killed", None)), self.assertRaises(Died):
            work.type("B←1")
