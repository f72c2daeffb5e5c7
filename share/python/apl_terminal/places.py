"""Where the terminal keeps what it keeps."""
from __future__ import annotations

import functools
import os
import tempfile
from contextlib import suppress
from typing import Iterator

from apl.commands import NotDone

UNNAMED = "unnamed-{}.apl-journal"


def state() -> str:
    """Returns the folder for what lasts from one session to the next, which is made where there is none; another one, in that for what is
    temporary, where it can't be."""
    folder = os.path.join(os.environ.get("XDG_STATE_HOME") or os.path.expanduser("~/.local/state"), "apl")
    try:
        os.makedirs(folder, mode=0o700, exist_ok=True)
    except OSError:
        return temporary()
    return folder


@functools.lru_cache(maxsize=None)
def temporary() -> str:
    """Returns a new folder for what can be kept nowhere else."""
    return tempfile.mkdtemp(prefix="apl-")


def history() -> str:
    """Returns the file of the lines that were typed at all terminals."""
    return os.path.join(state(), "typed")


def draft() -> str:
    """Returns the file for the text of the function that was refused last."""
    return os.path.join(state(), "refused.apl")


def real(name: str) -> str:
    """Returns the file that a workspace's name stands for: a path, with ~ for one's own folder, through links. Raises NotDone where it begins
    in the folder that the terminal was started in, and that is gone."""
    try:
        return os.path.realpath(os.path.expanduser(name))
    except FileNotFoundError:
        raise NotDone("the folder that the terminal was started in is gone: name a file by its whole path, as ~/ledger") from None


def journal(file: str) -> str:
    """Returns the file of a workspace's journal: beside it, or in the folder of `state` where nothing can be written there."""
    folder, name = os.path.split(file)
    if os.access(folder, os.W_OK):
        return os.path.join(folder, f".{name}.apl-journal")
    return os.path.join(state(), file.replace("%", "%25").replace("/", "%2F")[-200:] + ".apl-journal")


def unnamed() -> Iterator[str]:
    """Returns files for the journal of a workspace without a name, first those that are there."""
    folder = state()
    there = [it for number in range(1, 100) if os.path.exists(it := os.path.join(folder, UNNAMED.format(number)))]
    yield from there
    number = 1
    while True:
        if (path := os.path.join(folder, UNNAMED.format(number))) not in there:
            yield path
        number += 1


def shown(path: str) -> str:
    """Returns a path as it is told: from the folder that the terminal runs in or from one's own where it lies there."""
    here, home = "", os.path.expanduser("~")
    with suppress(FileNotFoundError):
        here = os.getcwd()
    if here and path.startswith(here.rstrip("/") + "/"):
        return path[len(here.rstrip("/")) + 1:]
    return "~" + path[len(home):] if home != "/" and path.startswith(home + "/") else path
