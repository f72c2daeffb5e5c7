"""What the lines of a cell write."""
import time
from typing import Callable, List, Sequence

from apl import Line

# What is written is sent to the notebook at most so often, in seconds, and so many characters of a cell are.
PAUSE, MOST = 0.05, 500_000
CUT = "(The cell shows no more: it has written 500,000 characters.)\n"


class Output:
    """What a cell writes, sent in pieces while it runs, without the reports of faults."""

    def __init__(self, send: Callable[[str], None]) -> None:
        self.send, self.sent, self.when = send, 0, 0.0
        self.waiting: List[str] = []
        # what the line that was typed last wrote last, and the report that it ended with
        self.last = ""
        self.report: List[str] = []

    def begin(self) -> None:
        """Notes that another line is typed."""
        self.last, self.report = "", []

    def add(self, lines: Sequence[Line]) -> None:
        """Takes lines that are written."""
        for it in lines:
            (self.report if it.kind == "report" else self.waiting).append(it.text)
            self.last = it.text
        if time.monotonic() - self.when >= PAUSE:
            self.flush()

    def flush(self) -> None:
        """Sends what is written."""
        text = "".join(f"{it}\n" for it in self.waiting)
        self.waiting.clear()
        if text and self.sent < MOST:
            self.send(text if self.sent + len(text) <= MOST else text[:MOST - self.sent] + "\n" + CUT)
            self.when = time.monotonic()
        self.sent += len(text)
