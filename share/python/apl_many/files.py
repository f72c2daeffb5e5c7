"""Workspaces in a folder, and answers out of the table."""
from __future__ import annotations

import csv
import os
import unicodedata
from pathlib import Path
from typing import Iterator, List, Tuple

from apl_many.answers import told
from apl_many.table import Table

MOST_NAME = 255


class NoName(Exception):
    """A name that no file here can have."""


def checked(name: str) -> str:
    """Returns a name. Raises NoName where it is hidden, leads to another folder, is too long, or isn't text that can be printed."""
    is_printed = all(unicodedata.category(it) not in ("Cc", "Cs") for it in name)
    if not is_printed or not name or name.startswith(".") or "/" in name or len(name.encode()) > MOST_NAME:
        raise NoName(f"{name!r} can't be the name of a workspace")
    return name


def workspaces_in(folder: str) -> Iterator[Tuple[str, bytes]]:
    """Yields names and bytes of the files of a folder, in ascending order, but for hidden ones. Raises OSError and NoName."""
    for path in sorted(Path(folder).iterdir()):
        if not path.name.startswith(".") and path.is_file():
            yield checked(path.name), path.read_bytes()


def write(path: Path, data: bytes) -> None:
    """Writes a file whole or not at all. It is its user's alone, as it may hold private work."""
    new = path.with_name(f".{os.getpid()}.new")
    with open(new, "wb", opener=lambda name, flags: os.open(name, flags, 0o600)) as file:
        file.write(data)
    os.replace(new, path)


def take_out(table: Table, folder: str) -> Tuple[int, List[str]]:
    """Writes the workspaces, what was written, and the numbers of all answered rows, and returns how many, and names that no file can have.

    The folder gets folders `workspaces` and `transcripts`, in which each recalculated workspace has a file of its name, and a table
    `numbers.csv`.
    """
    top = Path(folder)
    workspaces, transcripts = top / "workspaces", top / "transcripts"
    for it in (workspaces, transcripts):
        it.mkdir(parents=True, exist_ok=True)
    count, wrong = 0, []
    with open(top / "numbers.csv", "w", encoding="utf-8", newline="") as file:
        numbers = csv.writer(file, lineterminator="\n")
        numbers.writerow(["name", "number", "told", "seconds", "worker"])
        for row in table.answered():
            try:
                name = checked(row.name)
            except NoName:
                wrong.append(row.name)
                continue
            numbers.writerow([name, row.answer.number, told(row.answer.number), f"{row.answer.seconds:.3f}", row.worker])
            if row.answer.after is not None:
                write(workspaces / name, row.answer.after)
                write(transcripts / name, (row.answer.transcript or "").encode())
            count += 1
    return count, wrong
