"""The workers of one machine, and how far all machines are."""
from __future__ import annotations

import os
import subprocess
import sys
import time
from contextlib import suppress
from pathlib import Path
from typing import Callable, List, Optional

from apl_many.table import Counts, Lost, Table
from apl_many.tables import open_table
from apl_many.worker import PATIENCE, Job

PACKAGES = str(Path(__file__).resolve().parent.parent)
# How often one looks whether workers still work, and the most of the time that looking at the table may take.
PAUSE, SHARE = 0.1, 0.05
# So many workers may die for each one wanted, without any answer in between, before no new one is begun.
DEATHS = 3


class CrewError(Exception):
    """The work can't be done."""


class Crew:
    """Worker processes, of which new ones take the place of those that die."""

    def __init__(self, job: Job, count: int) -> None:
        self.job, self.count = job, count
        self.deaths = self.answered = 0
        self.workers: List[subprocess.Popen[bytes]] = []
        self.table: Optional[Table] = None

    def run(self, show: Callable[[Counts], None]) -> Counts:
        """Works until each row has an answer, and returns how many have which number. show is called from time to time.

        Raises CrewError where a worker tells why it can't, or where workers die and nothing is answered. No worker is left in any case.
        """
        try:
            self.workers = [self._begun() for _ in range(self.count)]
            look = 0.0
            while self.workers:
                if time.monotonic() >= look:
                    began = time.monotonic()
                    if counts := self.look():
                        self._note(counts)
                        show(counts)
                    look = time.monotonic() + max(PAUSE, (time.monotonic() - began) / SHARE)
                time.sleep(PAUSE)
                self._replace()
            return self._end()
        finally:
            for it in self.workers:
                it.kill()
                it.communicate()
            self._let_go()

    def look(self) -> Optional[Counts]:
        """Returns how many rows have which number, or None where the database is away."""
        try:
            self.table = self.table or open_table(self.job.url, self.job.table)
            return self.table.counts()
        except Lost:
            self._let_go()
            return None

    def _let_go(self) -> None:
        """Ends the connection, if there is one."""
        with suppress(Lost):
            if self.table:
                self.table.close()
        self.table = None

    def _end(self) -> Counts:
        """Returns how many rows have which number, when the database tells."""
        ends = time.monotonic() + PATIENCE
        while not (counts := self.look()):
            if time.monotonic() >= ends:
                raise CrewError("the database is away")
            time.sleep(PAUSE)
        return counts

    def _begun(self) -> subprocess.Popen[bytes]:
        """Begins a worker."""
        paths = [PACKAGES, *filter(None, [os.environ.get("PYTHONPATH")])]
        worker = subprocess.Popen([sys.executable, "-m", "apl_many.worker"], stdin=subprocess.PIPE,
                                  env={**os.environ, "PYTHONPATH": os.pathsep.join(paths)})
        assert worker.stdin
        with suppress(BrokenPipeError):
            worker.stdin.write(self.job.as_json())
            worker.stdin.flush()
        return worker

    def _note(self, counts: Counts) -> None:
        """Forgets deaths where something was answered since."""
        if counts.all - counts.left != self.answered:
            self.answered, self.deaths = counts.all - counts.left, 0

    def _replace(self) -> None:
        """Takes away workers that have ended, and begins new ones for those that have died."""
        for it in [it for it in self.workers if it.poll() is not None]:
            self.workers.remove(it)
            it.communicate()
            if it.returncode == 2:
                raise CrewError("a worker has ended")
            if it.returncode:
                self.deaths += 1
                if self.deaths > DEATHS * self.count:
                    raise CrewError(f"{self.deaths} workers have died, and nothing was answered meanwhile")
                self.workers.append(self._begun())
