"""apl-many as it is typed."""
import csv
import io
import os
import signal
import subprocess
import sys
import time
from contextlib import redirect_stderr, redirect_stdout, suppress
from typing import List, Optional, Tuple
from unittest.mock import patch

from apl_many.answers import FINE, LARGE, Answer
from apl_many.command import main
from apl_many.crew import Crew, CrewError
from apl_many.files import NoName, checked
from apl_many.player import Player
from apl_many.progress import Progress, clock, summary
from apl_many.table import Counts, Lost, Table
from apl_many.tables import open_table
from apl_many.worker import Job, Worker
from tests.many import RECALC, InFolder, bounds
from tests.support import PROGRAM, TOP

COMMAND = str(TOP / "bin/apl-many")


class Typed(InFolder):
    def setUp(self) -> None:
        super().setUp()
        (self.folder / "in").mkdir()
        for name, data in self.small(12):
            (self.folder / "in" / name).write_bytes(data)
        (self.folder / "lines").write_text("RECALC\nT\n")
        self.url = f"sqlite:///{self.folder}/many.db"

    def typed(self, *words: str) -> Tuple[int, str, str]:
        """Types a command, and returns its status, output and errors."""
        output, errors = io.StringIO(), io.StringIO()
        with redirect_stdout(output), redirect_stderr(errors):
            try:
                status = main([self.url, "--program", PROGRAM, "--workers", "2", *words])
            except SystemExit as end:
                status = int(end.code or 0)
        return status, output.getvalue(), errors.getvalue()

    def path(self, name: str) -> str:
        """Returns a path in the folder."""
        return str(self.folder / name)

    def read(self, name: str) -> bytes:
        """Returns what a file in the folder has."""
        return (self.folder / name).read_bytes()

    def test_all_in_one_command(self) -> None:
        (self.folder / "in" / "wrong").write_bytes(b"{}")
        (self.folder / "in" / ".hidden").write_bytes(b"")
        (self.folder / "in" / "folder").mkdir()
        status, output, errors = self.typed("--load", self.path("in"), self.path("lines"), "--take", self.path("out"))
        self.assertEqual((status, output), (1, "13 workspaces: 12 recalculated, 1 refused (2)\n"))
        self.assertTrue(errors.startswith("13 workspaces loaded\n") and errors.endswith("13 answers taken\nwrong: 2, refused\n"), errors)
        self.assertEqual(sorted(os.listdir(self.path("out/workspaces"))), [f"w{k:03}" for k in range(1, 13)])
        self.assertEqual(self.read("out/transcripts/w007"), b"14\n")
        self.assertEqual(self.read("out/workspaces/w007"), self.workspace(f"N←7\n{RECALC}RECALC\n"))
        self.assertEqual((self.folder / "out/workspaces/w007").stat().st_mode & 0o777, 0o600)
        rows = list(csv.reader(self.read("out/numbers.csv").decode().splitlines()))
        wanted = [["name", "number", "told"], *([f"w{k:03}", "0", "recalculated"] for k in range(1, 13)), ["wrong", "2", "refused"]]
        self.assertEqual([row[:3] for row in rows], wanted)

    def test_one_after_the_other(self) -> None:
        self.assertEqual(self.typed("--make")[:2], (0, "0 workspaces: 0 recalculated\n"))
        self.assertEqual(self.typed("--load", self.path("in"))[:2], (0, "12 workspaces: 0 recalculated, 12 left\n"))
        self.assertEqual(self.typed()[:2], (0, "12 workspaces: 0 recalculated, 12 left\n"))
        self.assertEqual(self.typed(self.path("lines"))[:2], (0, "12 workspaces: 12 recalculated\n"))
        self.assertEqual(self.typed("--take", self.path("out"))[0], 0)
        self.assertEqual(len(os.listdir(self.path("out/workspaces"))), 12)

    def test_retry(self) -> None:
        (self.folder / "in" / "hungry").write_bytes(self.workspace("∇RECALC\nA←⍳N\nB←A+1\nC←B+1\nT←+/C\n∇\nN←1000000\n"))
        words = ["--load", self.path("in"), self.path("lines")]
        self.assertEqual(self.typed(*words, "--memory", "24")[:2], (1, "13 workspaces: 12 recalculated, 1 out of memory (8)\n"))
        self.assertEqual(self.typed(*words)[:2], (1, "13 workspaces: 12 recalculated, 1 out of memory (8)\n"))
        self.assertEqual(self.typed(*words, "--retry")[:2], (0, "13 workspaces: 13 recalculated\n"))

    def test_other_lines_are_refused(self) -> None:
        self.typed("--load", self.path("in"), self.path("lines"))
        (self.folder / "others").write_text("RECALC\n")
        status, output, errors = self.typed(self.path("others"))
        self.assertEqual((status, output), (2, ""))
        self.assertIn("other lines are typed", errors)
        self.assertEqual(self.typed("--table", "others", "--load", self.path("in"), self.path("others"))[0], 0)

    def test_wrong_words(self) -> None:
        self.typed("--make")
        (self.folder / "long").write_text("A" * 2001)
        for words in (["--workers", "0"], ["--seconds", "0"], ["--memory", "x"], ["--other"], [self.path("none")], [self.path("long")],
                      ["--load", self.path("none")], ["--table", "none"], ["--table", "a;b"]):
            status, output, errors = self.typed(*words)
            self.assertEqual((status, output), (2, ""), words)
            self.assertIn("apl-many: ", errors)

    def test_a_program_that_isnt_there(self) -> None:
        status, _, _ = self.typed("--load", self.path("in"), self.path("lines"), "--program", self.path("none"))
        self.assertEqual(status, 2)
        self.assertEqual(self.typed()[1], "12 workspaces: 0 recalculated, 12 left\n")

    def test_names_that_no_file_has(self) -> None:
        for name in ("", ".", "..", ".hidden", "a/b", "../a", "a\nb", "a\0b", "\udc80", "×" * 128):
            with self.assertRaises(NoName):
                checked(name)
        self.assertEqual([checked(it) for it in ("a b.json", "×" * 127)], ["a b.json", "×" * 127])
        table = self.table()
        table.load([("../a", b""), ("b", b"")])
        table.finish([(it, Answer(FINE, "", b"")) for it in table.take(2)], "me")
        status, _, errors = self.typed("--take", self.path("out"))
        self.assertEqual(status, 2)
        self.assertIn("1 have names that no file can have, as '../a'", errors)
        self.assertEqual((os.listdir(self.path("out/workspaces")), os.path.exists(self.path("out/a"))), (["b"], False))

    def test_an_interrupt_loses_nothing(self) -> None:
        (self.folder / "in" / "w000").write_bytes(self.workspace("∇RECALC\nL:→L\n∇\n"))
        words = [sys.executable, COMMAND, self.url, "--load", self.path("in"), self.path("lines"), "--workers", "1", "--seconds", "600",
                 "--program", PROGRAM]
        for number, status in ((signal.SIGINT, 130), (signal.SIGTERM, 143), (signal.SIGKILL, -9)):
            with subprocess.Popen(words, stdout=subprocess.DEVNULL, stderr=subprocess.PIPE) as it:
                assert it.stderr
                while b"left" not in it.stderr.readline():
                    pass
                time.sleep(0.5)
                it.send_signal(number)
                self.assertEqual(it.wait(20), status)
        self.assertEqual(self.typed()[1], "13 workspaces: 0 recalculated, 13 left\n")
        # no worker is left that holds a workspace for ten minutes
        began = time.monotonic()
        self.assertEqual(self.typed(self.path("lines"), "--seconds", "1")[1], "13 workspaces: 12 recalculated, 1 over its time (100)\n")
        self.assertLess(time.monotonic() - began, 300)


class Crews(InFolder):
    def job(self, program: str = PROGRAM) -> Job:
        """Returns a job over a table with workspaces."""
        table = self.table()
        table.load(self.small(5))
        table.agree("RECALC\nT")
        return Job(f"sqlite:///{self.folder}/many.db", "apl_many", bounds(program=program))

    def test_a_job_as_json(self) -> None:
        job = self.job()
        self.assertEqual(Job.of_json(job.as_json()), job)

    def test_a_database_that_is_away_is_tried_again(self) -> None:
        job, times = self.job(), []

        def away(url: str, name: str) -> Table:
            """Opens the table the third time."""
            times.append(time.monotonic())
            if len(times) < 3:
                raise Lost("away")
            return open_table(url, name)

        with patch("apl_many.worker.open_table", away):
            Worker(job).run()
        self.assertEqual((len(times), self.table().counts().fine), (3, 5))
        with patch("apl_many.worker.open_table", away), patch("apl_many.worker.PATIENCE", 0), self.assertRaises(Lost):
            times.clear()
            Worker(job).run()

    def test_a_batch_grows_and_ends_in_time(self) -> None:
        worker, table = Worker(self.job()), self.table()
        table.load([(f"more{k}", data) for k, (_, data) in enumerate(self.small(60))])
        player = Player(["RECALC"], bounds())
        self.addCleanup(player.close)
        with patch("apl_many.worker.SECONDS", 1000):
            self.assertEqual([worker._batch(table, player) for _ in range(4)], [1, 2, 4, 8])
        with patch("apl_many.worker.SECONDS", 0):
            self.assertEqual(worker._batch(table, player), 1)
        with patch("apl_many.worker.BYTES", 0):
            self.assertEqual(worker._batch(table, player), 1)
        worker.count = 1
        with patch("apl_many.worker.MOST_BYTES", 10):
            worker._batch(table, player)
        self.assertEqual(table.counts().others, [(LARGE, 1)])

    def test_workers_that_die_each_time(self) -> None:
        crew = Crew(self.job(), 2)
        deaths: List["subprocess.Popen[bytes]"] = []
        begun = crew._begun

        def killed() -> "subprocess.Popen[bytes]":
            """Begins a worker and kills it."""
            worker = begun()
            worker.kill()
            deaths.append(worker)
            return worker

        with patch.object(crew, "_begun", killed), self.assertRaisesRegex(CrewError, "workers have died"):
            crew.run(lambda counts: None)
        self.assertEqual(len(deaths), 2 + 6)

    def test_a_worker_that_dies_is_replaced(self) -> None:
        crew = Crew(self.job(), 1)
        killed: List[int] = []

        def kill(counts: Counts) -> None:
            """Kills the first worker."""
            if not killed:
                killed.append(crew.workers[0].pid)
                os.kill(killed[0], signal.SIGKILL)

        counts = crew.run(kill)
        self.assertEqual((counts.fine, counts.left), (5, 0))
        self.assertNotIn(f"{killed[0]}", [it.worker.split(":")[1] for it in self.table().answered()])

    def test_no_worker_is_left_behind(self) -> None:
        crew: Crew = Crew(self.job(), 3)
        begun: List["subprocess.Popen[bytes]"] = []

        def fail(counts: Counts) -> None:
            """Ends the run."""
            begun.extend(crew.workers)
            raise KeyboardInterrupt

        with suppress(KeyboardInterrupt):
            crew.run(fail)
        self.assertEqual([it.returncode for it in begun], [-9] * 3)


class Told(InFolder):
    def test_summary(self) -> None:
        rows: List[Tuple[List[Tuple[Optional[int], int]], str]] = [
            ([], "0 workspaces: 0 recalculated"),
            ([(None, 1200)], "1,200 workspaces: 0 recalculated, 1,200 left"),
            ([(100, 1), (0, 3), (101, 2), (3, 4), (8, 5), (9, 6), (None, 1)],
             "22 workspaces: 3 recalculated, 4 refused (3), 5 out of memory (8), 6 too large (9), 1 over its time (100), "
             "2 the program died (101), 1 left"),
        ]
        for numbers, text in rows:
            self.assertEqual(summary(Counts(numbers)), text)

    def test_clock(self) -> None:
        self.assertEqual([clock(it) for it in (0, 59.9, 61, 3600, 360_000)], ["0:00", "0:59", "1:01", "1:00:00", "100:00:00"])

    def test_progress(self) -> None:
        to = io.StringIO()
        progress = Progress(to)
        progress.show(Counts([(None, 5)]))
        progress.show(Counts([(None, 3), (0, 2)]))
        progress.end()
        self.assertEqual(to.getvalue(), "5 workspaces: 0 recalculated, 5 left\n")
        with patch.object(to, "isatty", lambda: True):
            progress = Progress(to)
        for left in (5, 4):
            progress.show(Counts([(None, left), (0, 5 - left)]))
        progress.end()
        self.assertRegex(to.getvalue(), r"\r5 workspaces: .*\r5 workspaces: 1 recalculated, 4 left; [\d,]+ a second, 0:00 to go\x1b\[K\r\x1b\[K$")
