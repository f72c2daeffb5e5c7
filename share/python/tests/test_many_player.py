"""Lines typed in workspaces, within bounds."""
import os
import shutil
import signal
import unittest
from typing import List
from unittest.mock import patch

from apl import AplError
from apl_many.answers import DIED, FINE, LARGE, MEMORY, TIME, Answer
from apl_many.bounds import TimeOver, at_most_memory, at_most_seconds
from apl_many.player import Player
from tests.many import LINES, InFolder, bounds
from tests.support import PROGRAM

HUNGRY = "∇RECALC\nL:⍎'V',(⍕N),'←N+⍳1000000'\nN←N+1\n→L\n∇\nN←1\n"
ENDLESS = "∇RECALC\nL:→L\n∇\n"
TALKING = "∇RECALC\nL:⍳1000\n→L\n∇\n"
LONG_STEP = "∇RECALC\nT←÷\\1000000⍴1 ¯1\n∇\n"
SMALL = 64 << 20


class Played(InFolder):
    def begun(self, lines: List[str], **how: float) -> Player:
        """Returns a player, which ends with the test."""
        player = Player(lines, bounds(**how))  # type: ignore[arg-type]
        self.addCleanup(player.close)
        return player

    def played(self, player: Player, workspace: bytes) -> Answer:
        """Returns what comes of a workspace, without its seconds."""
        answer = player.play(workspace)
        return Answer(answer.number, answer.transcript, answer.after)

    def test_as_the_program_itself(self) -> None:
        lines = ["RECALC", "T", "∇Z←F N", "Z←1÷N", "∇", "2+F 0", ")SI", "'É'", "∇OPEN"]
        (_, one), (_, two) = self.small(2)
        player = self.begun(lines)
        for workspace, wrote in ((one, "2\n"), (two, "4\n")):
            (self.folder / "before").write_bytes(workspace)
            run = f"{PROGRAM} before --save after <lines >wrote"
            (self.folder / "lines").write_text("\n".join(lines), encoding="utf-8")
            self.assertEqual(os.waitstatus_to_exitcode(os.system(f"cd {self.folder} && {run}")), 0)
            told = (self.folder / "wrote").read_text(encoding="utf-8")
            self.assertTrue(told.startswith(wrote) and "DOMAIN ERROR" in told, told)
            self.assertEqual(self.played(player, workspace), Answer(FINE, told, (self.folder / "after").read_bytes()))

    def test_a_refused_workspace_has_its_number_and_the_session_stays(self) -> None:
        player = self.begun(LINES)
        [(_, right)] = self.small(1)
        player.play(right)
        session = player.session
        wrong = right.replace(b'"name":"N"', b'"name":"1"')
        for workspace, number in ((b"", 1), (b"{", 1), (b"{}", 2), (right.replace(b'"io":1', b'"io":2'), 2), (wrong, 4)):
            self.assertEqual(self.played(player, workspace), Answer(number))
        self.assertIs(player.session, session)
        self.assertEqual(player.play(right).number, FINE)

    def test_out_of_memory(self) -> None:
        player = self.begun(LINES, memory=SMALL)
        self.assertEqual(self.played(player, self.workspace(HUNGRY)), Answer(MEMORY))
        self.assertEqual(player.play(self.small(1)[0][1]).transcript, "2\n")

    def test_out_of_memory_hangs_not_on_workspaces_before(self) -> None:
        player = self.begun(["V←N+⍳1000000", "+/V"], memory=SMALL)
        [(_, one)] = self.small(1)
        wanted = self.played(player, one)
        self.assertEqual(wanted.number, FINE)
        for _ in range(12):
            self.assertEqual(self.played(player, one), wanted)

    def test_a_transcript_without_end_is_out_of_memory(self) -> None:
        player = self.begun(LINES, memory=SMALL)
        self.assertEqual(self.played(player, self.workspace(TALKING)), Answer(MEMORY))
        self.assertEqual(player.play(self.small(1)[0][1]).transcript, "2\n")

    def test_over_its_time(self) -> None:
        player = self.begun(LINES, seconds=0.5)
        for lines in (ENDLESS, LONG_STEP):
            answer = player.play(self.workspace(lines))
            self.assertEqual((answer.number, answer.transcript, answer.after), (TIME, None, None))
            self.assertGreaterEqual(answer.seconds, 0.5)

    def test_after_a_time_that_is_over_it_goes_on(self) -> None:
        player = self.begun(LINES, seconds=1)
        player.play(self.workspace(ENDLESS))
        self.assertIsNone(player.session)
        player.bounds = bounds()
        self.assertEqual(player.play(self.small(1)[0][1]).transcript, "2\n")

    def test_too_large(self) -> None:
        with patch("apl_many.player.MOST_BYTES", 100):
            self.assertEqual(self.played(self.begun(LINES), self.small(1)[0][1]), Answer(LARGE))

    def test_a_program_that_is_killed_is_begun_anew(self) -> None:
        player = self.begun(LINES)
        [(_, one)] = self.small(1)
        wanted = self.played(player, one)
        assert player.session
        os.kill(player.session._pipe.process.pid, signal.SIGKILL)
        self.assertEqual(self.played(player, one), wanted)

    def test_a_program_that_dies_each_time(self) -> None:
        script = self.folder / "apl"
        script.write_text('#!/bin/sh\nread -r a\necho \'{"lines":[],"next":0,"state":"idle"}\'\nread -r a\n')
        script.chmod(0o755)
        player = Player(LINES, bounds(program=str(script)))
        self.assertEqual(self.played(player, self.small(1)[0][1]), Answer(DIED))

    def test_a_program_that_cant_be_started(self) -> None:
        [(_, one)] = self.small(1)
        with self.assertRaises(OSError):
            Player(LINES, bounds(program=str(self.folder / "none"))).play(one)
        with self.assertRaises(AplError):
            Player(LINES, bounds(program=shutil.which("true") or "true")).play(one)


class Bounded(unittest.TestCase):
    def test_seconds(self) -> None:
        with self.assertRaises(TimeOver), at_most_seconds(0.05):
            while True:
                pass
        with at_most_seconds(0.05):
            pass
        self.assertEqual(signal.setitimer(signal.ITIMER_REAL, 0), (0.0, 0.0))

    def test_memory(self) -> None:
        with self.assertRaises(MemoryError), at_most_memory(SMALL):
            bytearray(2 * SMALL)
        with at_most_memory(SMALL):
            bytearray(SMALL // 2)
        bytearray(2 * SMALL)
