"""The table in PostgreSQL: rows are taken and answered in one transaction, which the server undoes where a worker dies."""
from __future__ import annotations

from contextlib import contextmanager
from typing import Any, Iterator, List, Sequence, Tuple

import psycopg2
import psycopg2.errors
from psycopg2.extras import execute_batch

from apl_many.answers import Answer
from apl_many.table import Lost, NoTable, Table, TableError, Task

# A machine that vanishes without a word is noticed after a minute, on both sides, and its rows are given back. A row may take long.
SETTINGS = """set tcp_keepalives_idle = 30; set tcp_keepalives_interval = 10; set tcp_keepalives_count = 3;
set idle_in_transaction_session_timeout = 0; set statement_timeout = 0; set default_transaction_isolation = 'read committed'"""
ENCODINGS = ("UTF8", "SQL_ASCII")


@contextmanager
def errors_told() -> Iterator[None]:
    """Has errors of psycopg2 be told as a table's."""
    try:
        yield
    except (psycopg2.OperationalError, psycopg2.InterfaceError) as why:
        raise Lost(f"{why}".strip()) from None
    except psycopg2.errors.UndefinedTable:
        raise NoTable() from None
    except psycopg2.Error as why:
        raise TableError(f"{why}".strip()) from None


class PostgresTable(Table):
    """A connection to a table in PostgreSQL."""

    def __init__(self, url: str, name: str) -> None:
        super().__init__(name)
        with errors_told():
            self.base = psycopg2.connect(url, client_encoding="UTF8", keepalives_idle=30, keepalives_interval=10, keepalives_count=3,
                                         tcp_user_timeout=60_000)
            self.base.autocommit = True
        if (encoding := self.base.info.parameter_status("server_encoding")) not in ENCODINGS:
            raise TableError(f"the database has the encoding {encoding}, which lacks characters of APL: make one with the encoding UTF8")
        self._run(SETTINGS)

    def make(self) -> None:
        self._make("bigint generated always as identity primary key", "bytea")

    def take(self, count: int) -> List[Task]:
        self._run("begin")
        return [Task(*row) for row in self._run(
            "select id, length(workspace) from TABLE where number is null order by id limit ? for update skip locked", count)]

    def finish(self, answers: Sequence[Tuple[Task, Answer]], worker: str) -> None:
        self._answer(answers, worker)
        self._run("commit")

    def give_back(self) -> None:
        self._roll_back()

    def close(self) -> None:
        self.base.close()

    def _run(self, statement: str, *given: Any) -> List[Tuple[Any, ...]]:
        with errors_told(), self.base.cursor() as cursor:
            cursor.execute(self._spelled(statement), given)
            return list(cursor.fetchall()) if cursor.description else []

    def _run_each(self, statement: str, rows: Sequence[Sequence[Any]]) -> None:
        with errors_told(), self.base.cursor() as cursor:
            execute_batch(cursor, self._spelled(statement), rows)

    def _spelled(self, statement: str) -> str:
        return statement.replace("TABLE", self.name).replace("?", "%s")
