"""A function's text in the user's editor."""
from __future__ import annotations

import os
import re
import shlex
import shutil
import subprocess
import tempfile
from contextlib import suppress
from typing import List, Optional

from apl import AplError, Session
from apl_terminal.tty import plain

EDITORS = ("sensible-editor", "editor", "nano", "vi")
LABEL = re.compile(r"^\s*[A-Za-z∆⍙_][0-9A-Za-z∆⍙_]*\s*:")


def editor() -> Optional[List[str]]:
    """Returns the command of the editor: VISUAL or EDITOR of the environment, or one that is installed. Raises ValueError where they name no
    command."""
    chosen = (os.environ.get("VISUAL") or os.environ.get("EDITOR") or "").strip()
    if chosen:
        return shlex.split(chosen)
    return next(([it] for it in EDITORS if shutil.which(it)), None)


def edited(command: List[str], name: str, lines: List[str]) -> List[str]:
    """Returns lines as the editor leaves them, without empty ones at the end. Raises OSError where it can't be started, and
    CalledProcessError where it fails."""
    folder = tempfile.mkdtemp(prefix="apl-")
    path = os.path.join(folder, f"{name or 'function'}.apl")
    try:
        with open(path, "w", encoding="utf-8") as file:
            file.write("".join(f"{it}\n" for it in lines))
        with plain():
            subprocess.run([*command, path], check=True)
        with open(path, encoding="utf-8", errors="replace") as file:
            found = file.read().splitlines()
    finally:
        shutil.rmtree(folder, ignore_errors=True)
    while found and not found[-1].strip():
        found.pop()
    return found


def fault_of(program: str, lines: List[str], is_known: bool = True) -> List[str]:
    """Returns why a definition is refused, which is tried in a session of its own: the first line with which it is, and what is said of it.
    Where that one takes it, that is the workspace's doing, if it is known to be refused at all, and else there is nothing to tell."""
    with suppress(AplError, OSError), Session(program, seconds=5) as session:
        if not is_taken(session, lines[:1]):
            return ["the header is refused:", f"[0]   {lines[0]}"]
        if is_taken(session, lines):
            if not is_known:
                return []
            return ["its name stands for a variable in this workspace, or for something else that is no function"]
        well, ill = 1, len(lines)
        while ill - well > 1:
            middle = (well + ill) // 2
            well, ill = (middle, ill) if is_taken(session, lines[:middle]) else (well, middle)
        # a line's own faults are told before it makes a step
        result = session.run(LABEL.sub(lambda it: " " * len(it[0]), lines[ill - 1], count=1), 0)
        prompt = f"[{ill - 1}]".ljust(6)
        if result.told == "fault":
            name, *more = [it.text for it in result.lines]
            return [name, prompt + lines[ill - 1], *more[1:]]
        return ["behind those before it this line is refused (does its label stand twice, or in the header?):", prompt + lines[ill - 1]]
    return []


def is_taken(session: Session, lines: List[str]) -> bool:
    """Tells whether a definition of these lines is taken."""
    results = [session.run(it) for it in [f"∇{lines[0]}", *lines[1:], "∇"]]
    return not any(it.fault for it in results)
