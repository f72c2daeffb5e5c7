"""A terminal without a terminal: what the tests of the package apl_terminal share."""
import os
import tempfile
import unittest
from pathlib import Path
from typing import List, Optional
from unittest import mock

from apl import Line
from apl_terminal.telling import Gone
from apl_terminal.work import Work
from tests.support import PROGRAM


class Said:
    """Keeps what is shown and told, and answers questions."""

    def __init__(self) -> None:
        self.shown: List[str] = []
        self.told: List[str] = []
        self.asked: List[str] = []
        self.answer: Optional[bool] = True

    def show(self, lines: List[Line]) -> None:
        """Keeps what a line writes."""
        self.shown += [it.text for it in lines]

    def tell(self, text: str) -> None:
        """Keeps what the terminal tells."""
        self.told.append(text)

    def ask(self, text: str, _default: bool) -> bool:
        """Keeps the question, and answers it."""
        self.asked.append(text)
        if self.answer is None:
            raise Gone
        return self.answer

    def width(self) -> int:
        """Tells how many characters a line has room for."""
        return 80


class OfTerminal(unittest.TestCase):
    """A test in a folder of its own, which has the terminal's state too."""

    def setUp(self) -> None:
        made = tempfile.TemporaryDirectory()
        self.addCleanup(made.cleanup)
        self.folder = Path(made.name).resolve()
        self.addCleanup(os.chdir, os.getcwd())
        os.chdir(self.folder)
        changed = mock.patch.dict(os.environ, {"XDG_STATE_HOME": str(self.folder / "state")})
        changed.start()
        self.addCleanup(changed.stop)

    def work(self, name: Optional[str] = None, said: Optional[Said] = None) -> Work:
        """Begins to work on a workspace."""
        work = Work(PROGRAM, said or Said())
        self.addCleanup(lambda: work.session.close())  # the session that it has then
        work.open(name)
        return work

    def typed(self, work: Work, *lines: str) -> List[str]:
        """Types lines, and returns what they write."""
        front_end = work.front_end
        assert isinstance(front_end, Said)
        front_end.shown = []
        for line in lines:
            work.type(line)
        return front_end.shown

    def killed(self, work: Work) -> None:
        """Ends a terminal as a kill does: what is on the disk is all that is left."""
        work.session.close()
        work.journal.release()

    def said(self, work: Work) -> Said:
        """Returns what was said."""
        assert isinstance(work.front_end, Said)
        return work.front_end
