"""Lines typed in one workspace after the other, each within bounds."""
from __future__ import annotations

import time
from dataclasses import dataclass, replace
from typing import List, Optional, Tuple

from apl import Died, Refused, Session
from apl_many.answers import DIED, FINE, LARGE, MEMORY, TIME, Answer
from apl_many.bounds import TimeOver, at_most_memory, at_most_seconds

# A request that opens a workspace has at most 100,000,000 bytes, nine of them its own.
MOST_BYTES = 100_000_000 - 9
# So often a workspace is played in which the program dies, as it may have been killed for another reason.
TRIES = 3


@dataclass(frozen=True)
class Bounds:
    """The program that plays, the seconds that a workspace gets, and the bytes of memory that the program and its answers may have."""

    program: str
    seconds: float
    memory: int


class Player:
    """Types the same lines in workspaces, in one session of the program for as long as all goes well."""

    def __init__(self, lines: List[str], bounds: Bounds) -> None:
        self.lines, self.bounds = lines, bounds
        self.session: Optional[Session] = None

    def play(self, workspace: bytes) -> Answer:
        """Returns what comes of a workspace.

        What comes doesn't hang on the workspaces before it: where memory runs out in a session that has played others, a new one tries
        again. Raises OSError and Died where the program can't be started.
        """
        began = time.monotonic()
        for _ in range(TRIES):
            is_new = self.session is None
            answer = self._try(workspace)
            if answer.number not in (MEMORY, DIED) or answer.number == MEMORY and is_new:
                break
        return replace(answer, seconds=time.monotonic() - began)

    def close(self) -> None:
        """Ends the program. The next workspace is played in a new one."""
        if self.session is not None:
            self.session.close()
            self.session = None

    def _try(self, workspace: bytes) -> Answer:
        """Plays a workspace once. The session ends where something else than the workspace is refused."""
        if self.session is None:
            self.session = Session(self.bounds.program, memory=self.bounds.memory)
        try:
            with at_most_seconds(self.bounds.seconds), at_most_memory(self.bounds.memory):
                transcript, after = self._typed(self.session, workspace)
            return Answer(FINE, transcript, after)
        except Refused as refused:
            if refused.reason == "load":
                return Answer(refused.number)
            number = LARGE if refused.reason == "length" else MEMORY
        except TimeOver:
            number = TIME
        except MemoryError:
            number = MEMORY
        except Died:
            number = DIED
        self.close()
        return Answer(number)

    def _typed(self, session: Session, workspace: bytes) -> Tuple[str, bytes]:
        """Returns what the lines write, and the workspace after them."""
        session.open(workspace)
        written = [f"{it.text}\n" for line in self.lines for it in session.run(line).lines]
        transcript, after = "".join(written), session.workspace()
        if len(transcript.encode()) > MOST_BYTES or len(after) > MOST_BYTES:
            raise Refused("length")
        return transcript, after
