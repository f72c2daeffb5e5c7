"""Lines that are typed, and what can be seen of a session."""
import os
import signal
import subprocess
import sys
import threading
import time
import unittest
from pathlib import Path
from typing import List

from apl import Died, Fault, Function, Level, Line, Refused, Result, Session, Unset, Variable
from tests.support import LOOP, PROGRAM, OfSession


class Reports(unittest.TestCase):
    def test_what_a_report_tells(self) -> None:
        for number, texts, place, fault in [
            (3, ["DOMAIN ERROR", "      1÷0", "       ^"], {"column": 2}, Fault(3, "DOMAIN ERROR", "", 0, 2)),
            (6, ["INDEX ERROR", "∆F_1[10] A[1]+B[2] ", "              ^"], {"column": 6, "line": 10, "name": "∆F_1"},
             Fault(6, "INDEX ERROR", "∆F_1", 10, 6)),
            (9, ["DEFN ERROR"], None, Fault(9, "DEFN ERROR")),
        ]:
            written = [Line("1"), *(Line(it, "report") for it in texts)]
            self.assertEqual(Fault.of(number, written, place), fault)


class Lines(OfSession):
    def test_a_statement(self) -> None:
        result = self.session.run("2+3×4")
        self.assertEqual(result, Result((Line("14", "shown"),), "idle", steps=3))
        self.assertEqual(str(result), "14")

    def test_many_lines(self) -> None:
        self.assertEqual(self.typed("2 2⍴⍳4", "''", "A←5", "⍝"), "1 2\n3 4\n\n")

    def test_a_fault(self) -> None:
        result = self.session.run("1 2+1 2 3")
        self.assertEqual((result.text, result.told), ("LENGTH ERROR\n      1 2+1 2 3\n         ^", "fault"))
        self.assertEqual(({it.kind for it in result.lines}, result.fault), ({"report"}, Fault(5, "LENGTH ERROR", "", 0, 4)))
        self.assertEqual((self.session.run("2").told, self.session.run("2").fault), ("idle", None))

    def test_faults(self) -> None:
        self.typed("∇Z←∆F_1 X", "Z←1", "L:Z←Z+1", "Z←Z÷X", "∇", "∇G", "'TEXT'", "2×⍎'∆F_1 0'", "∇")
        for line, fault in [
            ("A[2", Fault(1, "SYNTAX ERROR", column=2)), ("NONE+1", Fault(2, "VALUE ERROR", column=1)), ("  1÷0", Fault(3, "DOMAIN ERROR", column=4)),
            ("∆F_1 0", Fault(3, "DOMAIN ERROR", "∆F_1", 3, 4)), ("G", Fault(3, "DOMAIN ERROR", "∆F_1", 3, 4)),
            ("⍎'1÷0'", Fault(3, "DOMAIN ERROR", column=1)), (")FOO", Fault(12, "INCORRECT COMMAND")), ("∇F[", Fault(9, "DEFN ERROR")),
            ("é", Fault(11, "CHARACTER ERROR")),
        ]:
            result = self.session.run(line)
            self.assertEqual((result.told, result.fault), ("fault", fault), (line, result.text))
        self.assertEqual(self.session.run("G").lines[0], Line("TEXT", "shown"))

    def test_a_fault_in_a_definition(self) -> None:
        results = [self.session.run(it) for it in ["∇F", "é", "1", "'", "∇"]]
        self.assertEqual([it.told for it in results], ["definition", "fault", "definition", "definition", "fault"])
        self.assertEqual([(it.next_line, it.fault) for it in (results[1], results[4])], [(1, Fault(11, "CHARACTER ERROR")), (0, Fault(9, "DEFN ERROR"))])

    def test_a_text_is_no_fault(self) -> None:
        for line in ["'DEFN ERROR'", "'INTERRUPT'", "3 12⍴'DOMAIN ERROR      1+2÷0            ^'"]:
            result = self.session.run(line)
            self.assertEqual((result.told, result.fault, {it.kind for it in result.lines}), ("idle", None, {"shown"}))

    def test_kinds(self) -> None:
        self.typed("∇F", "A←1", "A", "∇", "1 ⎕TRACE 'F'", "2 ⎕STOP 'F'")
        kinds = [[(it.text, it.kind) for it in self.session.run(line).lines] for line in ["F", ")SI", "→⎕LC", ")FNS"]]
        self.assertEqual(kinds, [[("F[1] 1", "trace"), ("F[2]", "stop")], [("F[2] *", "answer")], [("1", "shown")], [("F", "answer")]])
        self.assertEqual({it.kind for it in self.session.run("∇F[⎕]∇").lines}, {"answer"})

    def test_a_definition(self) -> None:
        told = [(it.told, it.next_line) for it in map(self.session.run, ["∇Z←SQ N", "Z←N×N", "", "∇", "SQ 5"])]
        self.assertEqual(told, [("definition", 1), ("definition", 2), ("definition", 3), ("idle", 0), ("idle", 0)])
        self.assertEqual(self.session.listing("SQ"), ["Z←SQ N", "Z←N×N", ""])
        self.assertEqual(self.typed("SQ 5"), "25\n")

    def test_a_stop(self) -> None:
        self.typed("∇F", "A←1", "A←2", "∇", "2 ⎕STOP 'F'")
        result = self.session.run("F")
        self.assertEqual((result.told, result.lines[-1]), ("stopped", Line("F[2]", "stop")))
        self.assertEqual(self.session.indicator(), [Level("F", 2, True, "A←2")])
        self.assertEqual(self.session.run("→⎕LC").told, "idle")
        self.assertEqual(self.session.value("A"), 2)

    def test_a_long_run(self) -> None:
        self.typed(*LOOP)
        result = self.session.run("LOOP 100000")
        self.assertEqual((result.text, result.told), ("", "idle"))

    def test_lines_that_are_refused(self) -> None:
        for line in ("1\n2", "1" * 2_001, "\ud800"):
            with self.assertRaises(Refused):
                self.session.run(line)
        self.assertEqual(self.session.run("'" + "⍴" * 498 + "'").lines[0].text, "⍴" * 498)
        self.assertEqual(self.typed("é", "\t", "\x00", "\U0001d400"), "CHARACTER ERROR\n" * 4)

    def test_other_threads(self) -> None:
        self.typed(*LOOP)
        results: List[Result] = []
        thread = threading.Thread(target=lambda: results.append(self.session.run("LOOP 100000000000")))
        thread.start()
        while not self.session.indicator():
            pass
        with self.assertRaises(Refused) as caught:
            self.session.run("1")
        self.assertEqual(caught.exception.reason, "running")
        with self.assertRaises(Refused):
            self.session.workspace()
        self.assertEqual([it.name for it in self.session.names()], ["LOOP"])
        self.session.interrupt()
        thread.join()
        self.assertEqual(results[0].told, "interrupted")
        self.end_the_loop()


class Looks(OfSession):
    def test_names(self) -> None:
        self.typed("∇Z←A F B;L", "Z←A", "∇", "∇G", "∇", "M←2 3⍴0", "T←'ABC'", "S←5")
        self.assertEqual(self.session.names(), [
            Function("F", "Z←A F B;L"), Function("G", "G"), Variable("M", (2, 3), "numbers"), Variable("S", (), "numbers"),
            Variable("T", (3,), "characters")])

    def test_names_of_a_call(self) -> None:
        self.typed("X←1", "Y←'A'", "L←2", "∇F Y;X", "L:÷0", "∇", "F 2 3")
        self.assertEqual(self.session.names(), [Function("F", "F Y;X"), Unset("L"), Unset("X"), Variable("Y", (2,), "numbers")])
        self.typed("→")
        self.assertEqual(self.session.names()[1:], [
            Variable("L", (), "numbers"), Variable("X", (), "numbers"), Variable("Y", (), "characters")])

    def test_the_indicator(self) -> None:
        self.typed("∇Z←F N", "Z←1÷N", "∇", "∇G", "2+F 0", "∇", "G")
        self.assertEqual(self.session.indicator(), [
            Level("F", 1, True, "Z←1÷N", 0, (Unset("Z"), Variable("N", (), "numbers"))), Level("G", 1, False, "2+F 0", 3)])
        self.assertEqual(self.session.value("N"), 0)
        self.assertEqual(self.typed("N←1", "→⎕LC"), "3\n")

    def test_names_of_each_call(self) -> None:
        self.typed("∇Z←A F B;L", "P:→0×⍳0=1↑⍴B", "L←'ABC'", "Z←A F 1↓B", "∇", "∇G", "⍎'7 F 2 2⍴0'", "∇", "3 ⎕STOP 'F'", "G")
        of_it = Level("F", 3, True, "Z←A F 1↓B", 0, (
            Unset("Z"), Variable("A", (), "numbers"), Variable("B", (2, 2), "numbers"), Variable("L", (3,), "characters"), Unset("P")))
        self.assertEqual(self.session.indicator(), [of_it, Level("G", 1, False, "⍎'7 F 2 2⍴0'", 1)])

    def test_what_is_not_there(self) -> None:
        for look, reason in ((self.session.listing, "function"), (self.session.value, "value"), (self.session.array, "value")):
            for name in ("NONE", "", "2", "⎕LC", "'", "é", "\n"):
                with self.assertRaises(Refused) as caught:
                    look(name)
                self.assertEqual(caught.exception.reason, reason)
                self.assertIn(repr(name), str(caught.exception))


class Ends(OfSession):
    def test_a_kill(self) -> None:
        self.typed("A←1")
        kept = self.session.workspace()
        self.typed("A←2")
        os.kill(self.session._pipe.process.pid, signal.SIGKILL)
        with self.assertRaises(Died) as caught:
            self.session.run("A")
        self.assertEqual(str(caught.exception), "the program was killed by SIGKILL")
        self.assertEqual(caught.exception.workspace, kept)
        with self.assertRaisesRegex(Died, "SIGKILL"):
            self.session.names()
        self.assertEqual(self.begun(caught.exception.workspace).value("A"), 1)

    def test_a_kill_while_a_line_runs(self) -> None:
        self.typed(*LOOP)
        threading.Timer(0.2, self.session._pipe.process.kill).start()
        with self.assertRaises(Died) as caught:
            self.session.run("LOOP 100000000000")
        self.assertIsNone(caught.exception.workspace)

    def test_a_closed_session(self) -> None:
        with self.session:
            pass
        self.session.close()
        with self.assertRaisesRegex(Died, "the session is closed"):
            self.session.run("1")

    def test_a_program_that_serves_nothing(self) -> None:
        with self.assertRaisesRegex(Died, "with status 2: unknown option --serve"):
            Session(sys.executable)
        with self.assertRaises(FileNotFoundError):
            Session("no such program")

    def test_a_program_that_answers_something_else(self) -> None:
        path = self.folder / "other"
        path.write_text("#!/bin/sh\nwhile read it; do echo hello; done\n")
        path.chmod(0o755)
        with self.assertRaisesRegex(Died, r"the program isn't apl: it answers b'hello\\n'"):
            Session(path)

    def test_what_is_no_line(self) -> None:
        with self.assertRaisesRegex(TypeError, "a line is a str, not int"):
            self.session.run(5)  # type: ignore[arg-type]
        with self.assertRaisesRegex(ValueError, "can't make -1 steps"):
            self.session.run("5", -1)
        self.assertEqual(self.session.run("5").text, "5")

    def test_the_program_ends_with_python(self) -> None:
        script = f"import apl, os; s = apl.Session({PROGRAM!r}); print(s._pipe.process.pid, flush=True); os._exit(0)"
        ran = subprocess.run([sys.executable, "-c", script], stdout=subprocess.PIPE, check=True, timeout=20)
        words = Path(f"/proc/{int(ran.stdout)}/cmdline")
        for _ in range(200):
            # of a process that has ended and that nobody has waited for they are empty
            if not words.exists() or not words.read_bytes():
                return
            time.sleep(0.05)
        self.fail("it is still there")

    def test_little_memory(self) -> None:
        session = self.begun(memory=64 << 20)
        with self.assertRaises(Refused) as caught:
            for number in range(100):
                session.run(f"V{number}←{number}+⍳1000000")
        self.assertEqual(caught.exception.reason, "memory")
        session.run(")ERASE V0")
        self.assertEqual(session.run("2+3").text, "5")
