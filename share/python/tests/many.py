"""What the tests of apl_many share."""
import subprocess
import sys
import tempfile
import unittest
from pathlib import Path
from typing import List, Tuple

from apl_many.player import Bounds
from apl_many.sqlite import SqliteTable
from tests.support import PROGRAM, saved

RECALC = "∇RECALC\nT←N×2\n∇\n"
LINES = ["RECALC", "T"]
PYTHON = [sys.executable, "-c"]


def bounds(seconds: float = 60, memory: int = 1 << 30, program: str = PROGRAM) -> Bounds:
    """Returns bounds on a workspace."""
    return Bounds(program, seconds, memory)


class InFolder(unittest.TestCase):
    """A test with a folder for files."""

    def setUp(self) -> None:
        made = tempfile.TemporaryDirectory()
        self.addCleanup(made.cleanup)
        self.folder = Path(made.name).resolve()

    def workspace(self, lines: str) -> bytes:
        """Returns the workspace that the program saves after these lines."""
        return saved(lines, self.folder / "saved")

    def small(self, count: int) -> List[Tuple[str, bytes]]:
        """Returns names and workspaces in which RECALC doubles N, which is 1 in the first."""
        whole = self.workspace(f"N←77\n{RECALC}")
        return [(f"w{k:03}", whole.replace(b"77", b"%d" % k)) for k in range(1, count + 1)]

    def table(self, name: str = "apl_many") -> SqliteTable:
        """Opens a table in a file of the folder."""
        table = SqliteTable(str(self.folder / "many.db"), name, is_new=True)
        self.addCleanup(table.close)
        table.make()
        return table

    def in_other_process(self, code: str) -> "subprocess.Popen[bytes]":
        """Has another process open the table and run Python code on it, and waits for a line from it."""
        head = f"from apl_many.sqlite import SqliteTable\ntable = SqliteTable({str(self.folder / 'many.db')!r}, 'apl_many')\n"
        other = subprocess.Popen([*PYTHON, head + code], stdin=subprocess.PIPE, stdout=subprocess.PIPE)
        self.addCleanup(other.communicate)
        self.addCleanup(other.kill)
        assert other.stdout
        self.assertEqual(other.stdout.readline(), b"ready\n")
        return other
