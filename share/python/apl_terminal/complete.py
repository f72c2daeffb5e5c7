"""What Tab completes: names of the workspace, system names, commands, and files behind the commands that take one."""
from __future__ import annotations

import os
import re
from typing import Callable, Iterator, List, Tuple

from apl.commands import MACHINE, SYSTEM

LETTER = "A-Za-z_∆⍙"
BEGUN = re.compile(f"(?:^\\s*\\)|⎕)?(?:[{LETTER}][0-9{LETTER}]*)?$")
OWN = [")COPY", ")EDIT", ")HELP", ")LIB", ")LOAD", ")OFF", ")SAVE", ")WSID"]
OF_FILES = re.compile(r"\s*\)(COPY|LIB|LOAD|SAVE|WSID)\s+(\S*)$", re.I)
OF_FUNCTIONS = re.compile(r"\s*\)EDIT\s", re.I)

# Gives the names of the functions and those of the others.
Names = Callable[[], Tuple[List[str], List[str]]]


def completions(before: str, names: Names) -> Tuple[str, List[str]]:
    """Returns what stands before the cursor of a word, and what that may become."""
    file = OF_FILES.match(before)
    if file:
        return file[2], list(files(file[2]))
    found = BEGUN.search(before)
    begun = found[0].lstrip() if found else ""
    if begun.startswith(")"):
        words, begun_as = [*MACHINE, *OWN], begun.upper()
    elif begun.startswith("⎕"):
        words, begun_as = [*SYSTEM], begun.upper()
    else:
        functions, others = names()
        words, begun_as = functions if OF_FUNCTIONS.match(before) else [*functions, *others], begun
    return begun, sorted(it for it in words if it.startswith(begun_as))


def files(begun: str) -> Iterator[str]:
    """Returns the files and folders whose paths begin so, without hidden ones."""
    folder, start = os.path.split(begun)
    try:
        with os.scandir(os.path.expanduser(folder) or ".") as found:
            for it in sorted(found, key=lambda it: it.name):
                if it.name.startswith(start) and (start.startswith(".") or not it.name.startswith(".")):
                    yield os.path.join(folder, it.name) + ("/" if it.is_dir() else "")
    except OSError:
        return
