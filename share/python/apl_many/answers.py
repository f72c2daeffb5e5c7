"""What came of a workspace, and its numbers."""
from __future__ import annotations

from dataclasses import dataclass
from typing import Optional

# 1 to 7 are those of a refused workspace (docs/WORKSPACE.md), 8 and 9 as in share/apl.h.
FINE, MEMORY, LARGE, TIME, DIED = 0, 8, 9, 100, 101
TOLD = {MEMORY: "out of memory", LARGE: "too large", TIME: "over its time", DIED: "the program died"}


@dataclass(frozen=True)
class Answer:
    """What came of a workspace: a number, what the lines wrote, the workspace after them, and the seconds that they took.

    Where the number isn't FINE, nothing that was written is kept.
    """

    number: int
    transcript: Optional[str] = None
    after: Optional[bytes] = None
    seconds: float = 0.0


def told(number: int) -> str:
    """Returns what a number means."""
    return "recalculated" if number == FINE else TOLD.get(number, "refused")
