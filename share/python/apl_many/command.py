"""The words of apl-many."""
from __future__ import annotations

import argparse
import os
import signal
import sys
from typing import List, Optional, Sequence

from apl import AplError, Session
from apl_many.answers import told
from apl_many.crew import Crew, CrewError
from apl_many.files import NoName, take_out, workspaces_in
from apl_many.lines import lines_of
from apl_many.player import Bounds
from apl_many.progress import Progress, summary
from apl_many.table import Table, TableError
from apl_many.tables import open_table
from apl_many.worker import Job

ABOUT = """Types the same lines in many workspaces, by many workers, on as many machines as there are. The workspaces and what came of
them are rows of a table. What is asked for is done in the order --make, --load, LINES, --take; with URL alone it tells how far it is."""
MORE = """URL is postgresql://USER@HOST/DATABASE for workers on many machines, where PostgreSQL serves them; or sqlite:///PATH or a path for
workers on one machine. Type the same command on each machine, and again where one was ended: it goes on with what has no answer.

Numbers: 0 recalculated; 1 to 7 the workspace is refused (docs/WORKSPACE.md); 8 out of memory; 9 over 100,000,000 bytes; 100 over its
time; 101 the program died. Only --retry takes a workspace again that has a number.

Statuses: 0 where each workspace that has an answer has the number 0; 1 where some have another; 2 where it can't be done; 130 where it is
interrupted."""
SHOWN = 10


class Unfit(Exception):
    """What is asked for can't be done."""


def parser(program: str) -> argparse.ArgumentParser:
    """Returns what reads the words. program is the default of --program."""
    made = argparse.ArgumentParser("apl-many", description=ABOUT, epilog=MORE, formatter_class=argparse.RawDescriptionHelpFormatter)
    made.add_argument("url", metavar="URL", help="the database")
    made.add_argument("lines", metavar="LINES", nargs="?", help="a file of lines to type in each workspace; - is standard input")
    made.add_argument("--make", action="store_true", help="make the table, if there is none")
    made.add_argument("--load", metavar="FOLDER", help="make the table, and load the files of FOLDER that it lacks: a row for each")
    made.add_argument("--take", metavar="FOLDER", help="write workspaces, transcripts and numbers into FOLDER")
    made.add_argument("--retry", action="store_true", help="take the workspaces again that have another number than 0")
    made.add_argument("--workers", metavar="N", type=at_least_one, default=len(os.sched_getaffinity(0)),
                      help="how many workers this machine has (one for each processor: %(default)s)")
    made.add_argument("--seconds", metavar="S", type=seconds, default=60.0, help="the most time for a workspace (60)")
    made.add_argument("--memory", metavar="MIB", type=at_least_one, default=1024,
                      help="the most memory for the program, and as much again for what it writes, for each worker (%(default)s)")
    made.add_argument("--program", metavar="APL", default=program, help="the program apl (%(default)s)")
    made.add_argument("--table", metavar="NAME", default="apl_many", help="the table's name (%(default)s)")
    return made


def at_least_one(word: str) -> int:
    """Returns the number of a word. Raises ValueError where it is none or less than one."""
    if (number := int(word)) < 1:
        raise ValueError
    return number


def seconds(word: str) -> float:
    """Returns the seconds of a word. Raises ValueError where they are none."""
    if not 0 < (number := float(word)) <= 1e6:
        raise ValueError
    return number


def agreed(table: Table, path: str) -> None:
    """Has the table note the lines of a file, if it has none yet. Raises Unfit where it has others, or where they can't be typed."""
    try:
        if path == "-":
            data = sys.stdin.buffer.read()
        else:
            with open(path, "rb") as file:
                data = file.read()
        lines = lines_of(data)
    except ValueError as why:
        raise Unfit(f"{path}: {why}") from None
    if not table.agree("\n".join(lines)):
        raise Unfit(f"{path}: other lines are typed in the workspaces of this table: take another table, with --table")


def prepare(asked: argparse.Namespace) -> None:
    """Makes the table, loads workspaces, and has the table note the lines, as far as it is asked for."""
    with open_table(asked.url, asked.table, is_new=asked.make or bool(asked.load)) as table:
        if asked.make or asked.load:
            table.make()
        if asked.load:
            print(f"{table.load(workspaces_in(asked.load)):,} workspaces loaded", file=sys.stderr)
        if asked.retry:
            print(f"{table.retry():,} workspaces to take again", file=sys.stderr)
        if asked.lines is not None:
            agreed(table, asked.lines)


def recalculate(asked: argparse.Namespace) -> None:
    """Has workers recalculate all workspaces that have no answer. Raises Unfit where the program can't be started."""
    try:
        Session(asked.program, memory=asked.memory << 20).close()
    except (AplError, OSError) as why:
        raise Unfit(f"{asked.program}: {why}") from None
    progress = Progress(sys.stderr)
    try:
        Crew(Job(asked.url, asked.table, Bounds(asked.program, asked.seconds, asked.memory << 20)), asked.workers).run(progress.show)
    finally:
        progress.end()


def conclude(asked: argparse.Namespace) -> int:
    """Takes out what is asked for, tells how far it is, and returns the status."""
    wrong: List[str] = []
    with open_table(asked.url, asked.table) as table:
        if asked.take:
            count, wrong = take_out(table, asked.take)
            print(f"{count:,} answers taken", file=sys.stderr)
        counts, others = table.counts(), table.others(SHOWN)
    for name, number in others:
        print(f"{name}: {number}, {told(number)}", file=sys.stderr)
    print(summary(counts))
    if wrong:
        raise Unfit(f"{len(wrong):,} have names that no file can have, as {wrong[0]!r}")
    return 1 if counts.others else 0


def stop(number: int, _frame: object) -> None:
    """Ends this process as a signal does, but for its workers, which end with it."""
    raise SystemExit(128 + number)


def main(words: Optional[Sequence[str]] = None, program: str = "apl") -> int:
    """Does what the words ask for, and returns the status."""
    asked = parser(program).parse_intermixed_args(words)
    signal.signal(signal.SIGTERM, stop)
    try:
        prepare(asked)
        if asked.lines is not None:
            # no connection stays open meanwhile: the server may be started anew
            recalculate(asked)
        return conclude(asked)
    except (Unfit, TableError, CrewError, NoName, OSError) as why:
        print(f"apl-many: {why}", file=sys.stderr)
        return 2
    except KeyboardInterrupt:
        print("apl-many: interrupted; the same command goes on", file=sys.stderr)
        return 130
