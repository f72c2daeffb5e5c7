"""What the tests share."""
import contextlib
import os
import subprocess
import tempfile
import threading
import unittest
from pathlib import Path
from typing import Any, Callable, Iterator

from apl import Session

TOP = Path(__file__).resolve().parents[3]
PROGRAM = os.path.abspath(os.environ.get("APL", str(TOP / "crates/apl/out/apl")))
LOOP = ["∇LOOP N", "N←N-1", "→N>0", "∇"]


class OfSession(unittest.TestCase):
    """A test with a clear session, and a folder for files."""

    def setUp(self) -> None:
        self.session = self.begun()
        made = tempfile.TemporaryDirectory()
        self.addCleanup(made.cleanup)
        self.folder = Path(made.name).resolve()

    def begun(self, *given: Any, **named: Any) -> Session:
        """Begins a session, which ends with the test."""
        session = Session(PROGRAM, *given, **named)
        self.addCleanup(session.close)
        return session

    def typed(self, *lines: str) -> str:
        """Types lines, and returns what they write."""
        return "".join(f"{line.text}\n" for typed in lines for line in self.session.run(typed).lines)

    def in_time(self, took: float, most: float) -> None:
        """Asks that something took less than so many seconds, unless UNTIMED is set, as on a machine that does other work."""
        if "UNTIMED" not in os.environ:
            self.assertLess(took, most)

    def end_the_loop(self) -> None:
        """Takes the function LOOP and a call of it that is suspended away."""
        self.typed("→", ")ERASE LOOP")
        self.assertEqual(self.session.indicator(), [])


@contextlib.contextmanager
def striking(seconds: float, strike: Callable[[], None]) -> Iterator[None]:
    """Calls strike after so many seconds and again each second until the block ends: on a busy machine the first may come before the line runs."""
    ended = threading.Event()

    def strikes() -> None:
        wait = seconds
        while not ended.wait(wait):
            strike()
            wait = 1.0

    thread = threading.Thread(target=strikes)
    thread.start()
    try:
        yield
    finally:
        ended.set()
        thread.join()


def saved(lines: str, path: Path) -> bytes:
    """Returns the workspace that the program itself saves after these lines."""
    subprocess.run([PROGRAM, "--save", path], input=lines.encode(), stdout=subprocess.DEVNULL, check=True)
    return path.read_bytes()
