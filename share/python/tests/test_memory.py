"""Sessions of which an allocation is refused: what is refused is made again, and then all is as without that."""
import os
import shutil
import subprocess
import tempfile
import unittest
from pathlib import Path
from typing import Callable, Optional, TypeVar
from unittest.mock import patch

from apl import Died, Refused, Session
from tests.support import PROGRAM, TOP

T = TypeVar("T")
# Of so many allocations one is refused, since each takes a session.
STEP = 7


def again(call: Callable[[], T]) -> T:
    """Makes a call, and once more where memory is out."""
    try:
        return call()
    except Refused as refused:
        assert refused.reason == "memory", refused
        return call()


@unittest.skipUnless(shutil.which("cc"), "there is no C compiler to make the library that refuses memory")
class Memory(unittest.TestCase):
    def play(self, session: Session) -> None:
        """Has a session define, set, fault, look, save and open."""
        for line in ("∇Z←F N", "Z←10÷N", "∇"):
            again(lambda: session.run(line))
        short, long = list(range(40)), list(range(400))
        again(lambda: session.set("V", short))
        again(lambda: session.set("W", long))
        again(lambda: session.run("1+F 0"))
        again(session.indicator)
        workspace = again(session.workspace)
        again(lambda: session.open(workspace))
        self.assertEqual(again(lambda: session.run("2+3")).text, "5")
        self.assertEqual((again(lambda: session.value("V")), again(lambda: session.value("W"))), (short, long))
        self.assertEqual([it.name for it in again(session.names)], ["F", "V", "W"])

    def begun(self, library: str, number: int) -> Optional[Session]:
        """Begins a session in which the allocation of this number is refused, or returns None where that ends it at its start."""
        with patch.dict(os.environ, LD_PRELOAD=library, REFUSE=str(number)):
            try:
                return Session(PROGRAM)
            except (Died, Refused):
                return None

    def test_refused_allocations(self) -> None:
        with tempfile.TemporaryDirectory() as folder:
            library = str(Path(folder, "refuse.so"))
            words = ["cc", "-O1", "-shared", "-fPIC", "-fno-builtin", "-o", library, str(TOP / "bin/refuse.c")]
            subprocess.run(words, check=True)
            number, played, was_refused = 1, 0, True
            while was_refused:
                session = self.begun(library, number)
                if session:
                    with self.subTest(number), session:
                        self.play(session)
                        process = session._pipe.process
                        assert process.stdin and process.stderr
                        process.stdin.close()
                        was_refused, played = b"refused" in process.stderr.read(), played + 1
                number += STEP
        self.assertGreater(played, 50)
