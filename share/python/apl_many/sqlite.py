"""The table in a SQLite file, for workers on one machine.

SQLite has no locks of rows. So a worker takes a row by a lock on the byte of its number in a file beside, which the system drops when
the process ends in any way.
"""
from __future__ import annotations

import fcntl
import os
import sqlite3
from contextlib import closing, contextmanager
from itertools import islice
from typing import Any, Iterator, List, Sequence, Tuple

from apl_many.answers import Answer
from apl_many.table import Lost, NoTable, Table, TableError, Task, rows_of

# So long one waits while another writes.
SECONDS = 60.0


@contextmanager
def errors_told() -> Iterator[None]:
    """Has errors of sqlite3 be told as a table's."""
    try:
        yield
    except sqlite3.Error as why:
        if "no such table" in f"{why}":
            raise NoTable() from None
        raise (Lost if "locked" in f"{why}" or "busy" in f"{why}" else TableError)(f"{why}") from None


class SqliteTable(Table):
    """A connection to a table in a SQLite file."""

    def __init__(self, path: str, name: str, is_new: bool = False) -> None:
        """Raises TableError where there is no such file, unless it may be a new one."""
        super().__init__(name)
        try:
            if not os.path.exists(path):
                if not is_new:
                    raise TableError(f"there is no file {path}")
                # a new file is its user's alone, as it may hold private work
                os.close(os.open(path, os.O_RDWR | os.O_CREAT, 0o600))
            self.locks = os.open(f"{path}-taken", os.O_RDWR | os.O_CREAT | os.O_CLOEXEC, 0o600)
        except OSError as why:
            raise TableError(f"{why}") from None
        with errors_told():
            self.base = sqlite3.connect(path, timeout=SECONDS, isolation_level=None)
        self._run("pragma journal_mode = wal")

    def make(self) -> None:
        self._make("integer primary key", "blob")

    def take(self, count: int) -> List[Task]:
        statement = self._spelled("select id, length(workspace) from TABLE where number is null order by id")
        with errors_told(), closing(self.base.execute(statement)) as rows:
            taken = [Task(*row) for row in islice((it for it in rows if self._lock(it[0])), count)]
        # another may have answered a row after it was looked for and before it was locked
        free = {row for row, in self._run(f"select id from TABLE where number is null and id in ({rows_of(taken)})")}
        for it in taken:
            if it.row not in free:
                fcntl.lockf(self.locks, fcntl.LOCK_UN, 1, it.row)
        return [it for it in taken if it.row in free]

    def _lock(self, row: int) -> bool:
        """Locks a row, and returns whether no other process had."""
        try:
            fcntl.lockf(self.locks, fcntl.LOCK_EX | fcntl.LOCK_NB, 1, row)
            return True
        except OSError:
            return False

    def finish(self, answers: Sequence[Tuple[Task, Answer]], worker: str) -> None:
        with self._transaction():
            self._answer(answers, worker)
        self.give_back()

    def give_back(self) -> None:
        fcntl.lockf(self.locks, fcntl.LOCK_UN)

    def close(self) -> None:
        self.base.close()
        os.close(self.locks)

    def _run(self, statement: str, *given: Any) -> List[Tuple[Any, ...]]:
        with errors_told():
            return list(self.base.execute(self._spelled(statement), given))

    def _run_each(self, statement: str, rows: Sequence[Sequence[Any]]) -> None:
        with errors_told():
            self.base.executemany(self._spelled(statement), rows)

    def _spelled(self, statement: str) -> str:
        # a transaction that writes later must not begin as one that reads
        return "begin immediate" if statement == "begin" else statement.replace("TABLE", self.name)
