"""A worker: a process that takes workspaces, plays the lines in them, and writes the answers, until there is no workspace without one.

It is started by apl_many.crew, as `python3 -m apl_many.worker` with one line of JSON on its standard input. When that is closed, as where
who started it has died, it ends at once. It may be killed at any time: what it has taken and not answered is then another's.
"""
from __future__ import annotations

import json
import os
import signal
import socket
import sys
import threading
import time
from dataclasses import asdict, dataclass
from typing import Optional

from apl import AplError
from apl_many.answers import LARGE, Answer
from apl_many.player import MOST_BYTES, Bounds, Player
from apl_many.table import Lost, Table, TableError
from apl_many.tables import open_table

# A transaction takes some such seconds, and answers some such bytes and at most so many rows.
SECONDS, BYTES, ROWS = 0.5, 64 << 20, 100
# How long one waits for a row that another has taken, and for a database that is away.
PAUSE, PATIENCE = 0.2, 300.0


@dataclass(frozen=True)
class Job:
    """What a worker is told: the table, and the bounds on a workspace."""

    url: str
    table: str
    bounds: Bounds

    def as_json(self) -> bytes:
        """Returns the line that `of_json` reads."""
        return json.dumps(asdict(self)).encode() + b"\n"

    @classmethod
    def of_json(cls, line: bytes) -> Job:
        """Returns the job of a line."""
        found = json.loads(line)
        return cls(found["url"], found["table"], Bounds(**found["bounds"]))


class Worker:
    """What takes and answers."""

    def __init__(self, job: Job) -> None:
        self.job = job
        self.name = f"{socket.gethostname()}:{os.getpid()}"
        self.count = 1
        # since when the database is away
        self.away: Optional[float] = None

    def run(self) -> None:
        """Works until each row has an answer. A database that is away is tried again for PATIENCE seconds.

        Raises TableError where it stays away or refuses something, and OSError or AplError where the program can't be started.
        """
        while True:
            try:
                with open_table(self.job.url, self.job.table) as table:
                    self._work(table)
                return
            except Lost:
                self.away = self.away or time.monotonic()
                if time.monotonic() - self.away >= PATIENCE:
                    raise
                time.sleep(PAUSE)

    def _work(self, table: Table) -> None:
        """Works over one connection. Raises Lost where it is lost."""
        player = Player((table.lines() or "").split("\n"), self.job.bounds)
        try:
            while self._batch(table, player) or not table.is_done():
                self.away = None
        finally:
            player.close()

    def _batch(self, table: Table, player: Player) -> int:
        """Takes rows and answers them, and returns how many. Where others have taken all that are left it waits a little."""
        began, tasks = time.monotonic(), table.take(self.count)
        answers = [(task, Answer(LARGE)) for task in tasks if task.size > MOST_BYTES]
        size = 0
        for task, workspace in table.workspaces([task for task in tasks if task.size <= MOST_BYTES]):
            answer = player.play(workspace)
            answers.append((task, answer))
            size += len(answer.transcript or "") + len(answer.after or b"")
            if time.monotonic() - began >= SECONDS or size >= BYTES:
                break
        if not answers:
            table.give_back()
            time.sleep(PAUSE)
            return 0
        table.finish(answers, self.name)
        took = time.monotonic() - began
        self.count = max(1, min(2 * self.count, ROWS, int(SECONDS * len(answers) / took)))
        return len(answers)


def end_with_input() -> None:
    """Ends this process when its standard input ends, whatever else it does."""
    while os.read(0, 1):
        pass
    os._exit(1)


def main() -> int:
    """Works on the job that standard input has. Statuses: 0; 2 where the work can't be done, which is told."""
    signal.signal(signal.SIGINT, signal.SIG_IGN)
    job = Job.of_json(sys.stdin.buffer.readline())
    threading.Thread(target=end_with_input, daemon=True).start()
    try:
        Worker(job).run()
    except (TableError, AplError, OSError) as why:
        print(f"apl-many: {why}", file=sys.stderr)
        return 2
    return 0


if __name__ == "__main__":
    sys.exit(main())
