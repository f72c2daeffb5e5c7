"""Lines that are interrupted, from threads, by signals, at the keyboard and by their time."""
import random
import signal
import time
from types import FrameType
from typing import List, Optional

from apl import Died, Interrupted, Line
from tests.support import LOOP, OfSession, striking

LONG = "LOOP 10000000000"


class Interrupts(OfSession):
    def setUp(self) -> None:
        super().setUp()
        self.typed(*LOOP)

    def test_a_thread(self) -> None:
        took = []
        for _ in range(5):
            struck = [0.0]

            def strike() -> None:
                struck[0] = time.monotonic()
                self.session.interrupt()

            with striking(0.1, strike):
                result = self.session.run(LONG)
            took.append(time.monotonic() - struck[0])
            self.assertEqual((result.told, result.lines[0].text), ("interrupted", "INTERRUPT"))
        self.in_time(sorted(took)[2], 0.05)
        self.assertEqual(len(self.session.indicator()), 5)
        self.assertEqual(self.typed("2+3"), "5\n")

    def test_what_was_interrupted_goes_on(self) -> None:
        with striking(0.1, self.session.interrupt):
            self.assertEqual(self.session.run("LOOP 1000000000").told, "interrupted")
        self.typed("N←3")
        self.assertEqual(self.session.run("→⎕LC").told, "idle")
        self.assertEqual(self.session.indicator(), [])

    def test_steps_that_grow_dearer(self) -> None:
        self.typed("∇SLOW N", "N←N-1", "→1+2×N≤0", "A←+/⍳100000", "→3", "∇")
        began = time.monotonic()
        with striking(0.5, self.session.interrupt):
            self.assertEqual(self.session.run("SLOW 20000").told, "interrupted")
        self.in_time(time.monotonic() - began, 5)

    def test_an_idle_session(self) -> None:
        self.session.interrupt()
        self.assertEqual(self.session.run("2+3").text, "5")

    def test_a_signal_handler(self) -> None:
        old = signal.signal(signal.SIGALRM, lambda *_: self.session.interrupt())
        try:
            signal.setitimer(signal.ITIMER_REAL, 0.1)
            self.assertEqual(self.session.run(LONG).told, "interrupted")
        finally:
            signal.signal(signal.SIGALRM, old)

    def test_the_same_step_again(self) -> None:
        for _ in range(5):
            other = self.begun(self.session.workspace())
            with striking(0.05, self.session.interrupt):
                first = self.session.run(LONG)
            again = other.run(LONG, first.steps)
            self.assertEqual((again, other.workspace()), (first, self.session.workspace()))

    def test_few_steps(self) -> None:
        for steps in (0, 1, 5, 2_000, 2_001):
            result = self.session.run(LONG, steps)
            self.assertEqual((result.told, result.steps), ("interrupted", steps))
        result = self.session.run("2+3", 2)
        self.assertEqual((result.told, result.text, result.steps), ("idle", "5", 2))

    def test_how_many_steps(self) -> None:
        self.typed(*LOOP)
        for line, steps in (("LOOP 20000", 140_002), ("1÷0", 1), (")SI", 0)):
            self.assertEqual(self.session.run(line).steps, steps, line)

    def test_lines_as_they_are_written(self) -> None:
        self.typed("∇SHOW N", "N", "N←N-1", "→N>0", "∇")
        found: List[Line] = []
        result = self.session.run("SHOW 5000", show=found.extend)
        self.assertEqual((result.lines, len(found), found[0].text), ((), 5_000, "5000"))

    def test_seconds(self) -> None:
        session = self.begun(self.session.workspace(), seconds=0.1)
        began = time.monotonic()
        self.assertEqual(session.run(LONG).told, "interrupted")
        self.in_time(time.monotonic() - began, 1)
        self.assertEqual(session.run("2+3").told, "idle")


class Keys(OfSession):
    def setUp(self) -> None:
        super().setUp()
        self.typed(*LOOP)
        self.addCleanup(signal.signal, signal.SIGINT, signal.signal(signal.SIGINT, signal.default_int_handler))
        strikes = signal.signal(signal.SIGALRM, lambda *_: signal.raise_signal(signal.SIGINT))
        self.addCleanup(signal.signal, signal.SIGALRM, strikes)

    def strike(self, seconds: float) -> None:
        """Strikes Ctrl-C after some seconds."""
        signal.setitimer(signal.ITIMER_REAL, seconds)

    def test_a_line(self) -> None:
        self.strike(0.1)
        with self.assertRaises(KeyboardInterrupt) as caught:
            self.session.run(LONG)
        assert isinstance(caught.exception, Interrupted)
        self.assertEqual(caught.exception.result.told, "interrupted")
        self.assertEqual(self.session.indicator()[0].name, "LOOP")
        self.assertEqual(self.typed("2+3"), "5\n")

    def test_a_handler_of_ones_own(self) -> None:
        def handler(_number: int, _frame: Optional[FrameType]) -> None:
            self.session.interrupt()

        signal.signal(signal.SIGINT, handler)
        self.strike(0.1)
        self.assertEqual(self.session.run(LONG).told, "interrupted")
        self.assertIs(signal.getsignal(signal.SIGINT), handler)

    def test_a_step_that_takes_too_long(self) -> None:
        signal.setitimer(signal.ITIMER_REAL, 0.1, 1.1)
        try:
            with self.assertRaisesRegex(Died, "was killed by SIGKILL"):
                self.session.run("A←|\\1000000⍴7 5 3")
        finally:
            signal.setitimer(signal.ITIMER_REAL, 0)

    def test_a_handler_that_raises(self) -> None:
        def handler(_number: int, _frame: Optional[FrameType]) -> None:
            raise ZeroDivisionError

        signal.signal(signal.SIGINT, handler)
        self.strike(0.1)
        with self.assertRaises(ZeroDivisionError):
            self.session.run(LONG)
        try:
            # it came between two slices
            self.assertEqual(self.session.run("2").text, "2")
        except Died as died:
            self.assertIn("a signal handler raised", str(died))

    def test_any_moment(self) -> None:
        dice = random.Random(1)
        for number in range(200):
            with self.assertRaises(KeyboardInterrupt):
                self.strike(dice.uniform(0.0001, 0.003))
                while True:
                    self.session.run(f"A←{number}")
                    self.session.set("B", list(range(300)))
                    self.session.names()
            self.assertEqual(self.session.run(f"2+{number}").text, str(2 + number))
        self.assertLessEqual({it.name for it in self.session.names()}, {"A", "B", "LOOP"})
