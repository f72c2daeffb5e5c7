"""The table of workspaces and their answers: what PostgreSQL and SQLite have in common."""
from __future__ import annotations

import re
from abc import ABC, abstractmethod
from contextlib import contextmanager
from dataclasses import dataclass
from itertools import islice
from typing import Any, Iterable, Iterator, List, Optional, Sequence, Tuple

from apl_many.answers import FINE, Answer

NAME = re.compile("[a-z_][a-z0-9_]{0,40}")
# So many rows are read or written at once.
MANY, BYTES = 100, 1 << 20


class TableError(Exception):
    """The database refuses something, as where there is no such table."""


class NoTable(TableError):
    """There is no such table."""

    def __init__(self) -> None:
        super().__init__("there is no such table yet: --make makes it, and --load FOLDER with workspaces in it")


class Lost(TableError):
    """The database can't be reached, or is busy for too long. It may be there again later; what was begun is undone."""


@dataclass(frozen=True)
class Task:
    """A workspace that is to be recalculated: its row, and how many bytes it has."""

    row: int
    size: int


@dataclass(frozen=True)
class Row:
    """An answered row."""

    name: str
    answer: Answer
    worker: str


@dataclass(frozen=True)
class Counts:
    """How many rows have which number; None is the number of those without an answer."""

    numbers: Sequence[Tuple[Optional[int], int]]

    @property
    def all(self) -> int:
        """How many rows there are."""
        return sum(count for _, count in self.numbers)

    @property
    def left(self) -> int:
        """How many have no answer."""
        return sum(count for number, count in self.numbers if number is None)

    @property
    def fine(self) -> int:
        """How many workspaces were recalculated."""
        return sum(count for number, count in self.numbers if number == FINE)

    @property
    def others(self) -> List[Tuple[int, int]]:
        """The other numbers, in ascending order, each with how many rows have it."""
        return sorted((number, count) for number, count in self.numbers if number)


class Table(ABC):
    """A connection to the table. All calls raise Lost or TableError, and then have changed nothing."""

    def __init__(self, name: str) -> None:
        """Raises TableError where it can't be the name of a table."""
        if not NAME.fullmatch(name):
            raise TableError(f"{name!r} can't be the name of a table: small letters, digits and _ make one")
        self.name = name

    def __enter__(self) -> Table:
        return self

    def __exit__(self, *_: object) -> None:
        self.close()

    @abstractmethod
    def make(self) -> None:
        """Makes the table where there is none."""

    @abstractmethod
    def take(self, count: int) -> List[Task]:
        """Takes at most so many rows that have no answer and that no other has taken, the first ones first. They are taken until
        `finish` or `give_back`, or until this process ends in any way."""

    @abstractmethod
    def finish(self, answers: Sequence[Tuple[Task, Answer]], worker: str) -> None:
        """Answers rows of those that were taken, and gives the others back, in one transaction."""

    @abstractmethod
    def give_back(self) -> None:
        """Gives the rows that were taken back without answers."""

    @abstractmethod
    def close(self) -> None:
        """Ends the connection. What was taken is given back."""

    @abstractmethod
    def _run(self, statement: str, *given: Any) -> List[Tuple[Any, ...]]:
        """Runs a statement in which a `?` stands for each value and TABLE for the table's name, and returns the rows that it gives."""

    @abstractmethod
    def _run_each(self, statement: str, rows: Sequence[Sequence[Any]]) -> None:
        """Runs a statement once for each row of values."""

    @contextmanager
    def _transaction(self) -> Iterator[None]:
        """Has all or none of the statements be done."""
        self._run("begin")
        try:
            yield
        except BaseException:
            self._roll_back()
            raise
        self._run("commit")

    def _roll_back(self) -> None:
        """Undoes what was begun, which a lost connection does by itself."""
        try:
            self._run("rollback")
        except TableError:
            pass

    def _make(self, row: str, blob: str) -> None:
        """Makes the table and that of its lines. row is the type of the rows' numbers, blob that of bytes."""
        with self._transaction():
            # what is counted stands before what may be large
            self._run(f"create table if not exists TABLE (id {row}, name text not null unique, number integer, seconds real, worker text, "
                      f"workspace {blob} not null, transcript text, after {blob})")
            self._run("create index if not exists TABLE_left on TABLE (id) where number is null")
            self._run("create table if not exists TABLE_lines (one integer primary key check (one = 1), lines text not null)")

    def load(self, workspaces: Iterable[Tuple[str, bytes]]) -> int:
        """Adds rows of names and workspaces, and returns how many. A name that is there keeps what it has."""
        before, rest = self.counts().all, iter(workspaces)
        while some := list(islice(rest, MANY)):
            with self._transaction():
                self._run_each("insert into TABLE (name, workspace) values (?, ?) on conflict (name) do nothing", some)
        return self.counts().all - before

    def agree(self, lines: str) -> bool:
        """Whether these are the lines that are typed in all workspaces of this table: the first ones that a run brings."""
        with self._transaction():
            self._run("insert into TABLE_lines (one, lines) values (1, ?) on conflict (one) do nothing", lines)
            return self.lines() == lines

    def lines(self) -> Optional[str]:
        """Returns the lines that are typed in all workspaces of this table, None where no run has begun."""
        found = self._run("select lines from TABLE_lines")
        return found[0][0] if found else None

    def workspaces(self, tasks: Sequence[Task]) -> Iterator[Tuple[Task, bytes]]:
        """Yields rows with their workspaces, of which several are read at once where they are small."""
        for some in groups(tasks):
            found = {row: data for row, data in self._run(f"select id, workspace from TABLE where id in ({rows_of(some)})")}
            for it in some:
                yield it, bytes(found[it.row])

    def _answer(self, answers: Sequence[Tuple[Task, Answer]], worker: str) -> None:
        """Writes answers. The first one of a row stays."""
        self._run_each("update TABLE set number = ?, transcript = ?, after = ?, seconds = ?, worker = ? where id = ? and number is null",
                       [(it.number, it.transcript, it.after, it.seconds, worker, task.row) for task, it in answers])

    def retry(self) -> int:
        """Takes the answers from rows whose workspaces weren't recalculated, and returns how many these are."""
        with self._transaction():
            [[count]] = self._run("select count(*) from TABLE where number <> 0")
            self._run("update TABLE set number = null, seconds = null, worker = null where number <> 0")
        return int(count)

    def is_done(self) -> bool:
        """Whether each row has an answer."""
        return not self._run("select 1 from TABLE where number is null limit 1")

    def counts(self) -> Counts:
        """Returns how many rows have which number."""
        return Counts([(row[0], row[1]) for row in self._run("select number, count(*) from TABLE group by number")])

    def others(self, most: int) -> List[Tuple[str, int]]:
        """Returns names and numbers of the first rows whose workspaces weren't recalculated."""
        return [(row[0], row[1]) for row in self._run("select name, number from TABLE where number <> 0 order by id limit ?", most)]

    def answered(self) -> Iterator[Row]:
        """Yields the answered rows."""
        last = -1
        while found := self._run("select id, coalesce(length(transcript), 0) + coalesce(length(after), 0) from TABLE "
                                 "where id > ? and number is not null order by id limit ?", last, MANY):
            last = found[-1][0]
            for some in groups([Task(*it) for it in found]):
                for name, number, seconds, worker, transcript, after in self._run(
                        f"select name, number, seconds, worker, transcript, after from TABLE where id in ({rows_of(some)}) order by id"):
                    yield Row(name, Answer(number, transcript, None if after is None else bytes(after), seconds), worker)


def groups(tasks: Sequence[Task]) -> Iterator[List[Task]]:
    """Yields rows in groups, each of one row, or of several that have at most BYTES together."""
    some: List[Task] = []
    for it in tasks:
        if some and sum(other.size for other in some) + it.size > BYTES:
            yield some
            some = []
        some.append(it)
    if some:
        yield some


def rows_of(tasks: Sequence[Task]) -> str:
    """Returns the numbers of rows as a statement lists them."""
    return ", ".join(str(it.row) for it in tasks)
