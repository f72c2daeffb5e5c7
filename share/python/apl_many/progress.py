"""How far it is, in words."""
from __future__ import annotations

import time
from typing import Optional, TextIO

from apl_many.answers import told
from apl_many.table import Counts

# How often a line is written where it stays.
SECONDS = 10.0


def summary(counts: Counts) -> str:
    """Returns how many workspaces there are, and how many of them have which number."""
    parts = [f"{counts.fine:,} recalculated", *(f"{count:,} {told(number)} ({number})" for number, count in counts.others)]
    return f"{counts.all:,} workspaces: " + ", ".join(parts + ([f"{counts.left:,} left"] if counts.left else []))


def clock(seconds: float) -> str:
    """Returns a time in hours, minutes and seconds."""
    minutes, rest = divmod(int(seconds), 60)
    return f"{minutes // 60}:{minutes % 60:02}:{rest:02}" if minutes >= 60 else f"{minutes}:{rest:02}"


class Progress:
    """Writes how far it is: at a terminal in one line over and over, else a line from time to time."""

    def __init__(self, to: TextIO) -> None:
        self.to, self.is_terminal = to, to.isatty()
        self.began: Optional[float] = None
        self.first = self.written = 0.0

    def show(self, counts: Counts) -> None:
        """Writes how far it is, if it is time to."""
        now = time.monotonic()
        if self.began is None:
            self.began, self.first = now, counts.left
        elif not self.is_terminal and now - self.written < SECONDS:
            return
        self.written = now
        rate = (self.first - counts.left) / (now - self.began) if now > self.began else 0
        text = summary(counts) + (f"; {rate:,.0f} a second, {clock(counts.left / rate)} to go" if rate and counts.left else "")
        self.to.write(f"\r{text}\x1b[K" if self.is_terminal else f"{text}\n")
        self.to.flush()

    def end(self) -> None:
        """Ends the line."""
        if self.is_terminal and self.began is not None:
            self.to.write("\r\x1b[K")
            self.to.flush()
